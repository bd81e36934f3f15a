//! Ticket K4's names of finite groups, written from the ticket's words and apart from the port. A renumbering keeps how many
//! edges a component has, how many of them meet at a node and which fractions they have; a chain is told by its edges from one
//! end to the other, and a tree with one branch by how long its arms are. So each family is told by its shape.

use miratope::{
    cox::cd::Cd,
    diagrams::{Fraction, LIMIT},
};

use crate::{figures::Figure, port::NAMES};

/// A name's letter, `I` for I2, and the number that follows it.
#[derive(Clone, Copy, PartialEq, Eq, PartialOrd, Ord, Debug)]
pub struct Name(pub u8, pub u64);

impl Name {
    pub fn order(self) -> u64 {
        let Self(letter, n) = self;
        match (letter, n) {
            (b'A', _) => factorial(n + 1),
            (b'B', _) => factorial(n) << n,
            (b'D', _) => factorial(n) << (n - 1),
            (b'E', 6) => 51_840,
            (b'E', 7) => 2_903_040,
            (b'E', 8) => 696_729_600,
            (b'F', 4) => 1_152,
            (b'H', 3) => 120,
            (b'H', 4) => 14_400,
            (b'I', p) => 2 * p,
            _ => panic!("{self:?} is no name"),
        }
    }
}

fn factorial(n: u64) -> u64 {
    (1..=n).product()
}

/// Why no name fits a component, by the first of these that is so.
#[derive(Clone, Copy)]
pub enum Nameless {
    Cycle,
    Fraction,
    Branches,
    Arms,
    Chain,
}

/// A component: its lowest node, and its name.
pub type Component = (usize, Result<Name, Nameless>);

/// What `lexicon_names` must answer and write: lowest node, letter, number and order of each component; nothing if it refuses.
pub fn due(components: &[Component]) -> ([usize; 4], Vec<u64>) {
    let mut out = Vec::with_capacity(NAMES);
    for &(lowest, name) in components {
        let Ok(name) = name else { return ([21, lowest, 0, 0], vec![]) };
        out.extend([lowest as u64, name.0.into(), name.1, name.order()]);
    }
    out.resize(NAMES, 0);
    ([0, components.len(), 0, 0], out)
}

/// The components, over stored edges, by rising lowest node.
pub fn components(joined: &Joined) -> Vec<Component> {
    joined.components().iter().map(|nodes| (nodes[0], joined.name(nodes))).collect()
}

/// The fractions between nodes, no loops among them.
pub struct Joined {
    count: usize,
    near: [Vec<(usize, Fraction)>; LIMIT],
}

impl From<&Cd> for Joined {
    /// The fractions as they were typed.
    fn from(cd: &Cd) -> Self {
        let typed = cd.raw_edges().iter();
        let edges = typed.map(|edge| (edge.source().index(), edge.target().index(), Fraction::of(edge.weight)));
        Self::new(cd.node_count(), edges)
    }
}

impl From<&Figure> for Joined {
    fn from(figure: &Figure) -> Self {
        Self::new(figure.count, figure.joined_pairs().map(|(i, j)| (i, j, figure.pair(i, j))))
    }
}

impl Joined {
    fn new(count: usize, edges: impl Iterator<Item = (usize, usize, Fraction)>) -> Self {
        let mut near: [Vec<_>; LIMIT] = Default::default();
        for (a, b, fraction) in edges.filter(|(a, b, _)| a != b) {
            near[a].push((b, fraction));
            near[b].push((a, fraction));
        }
        Self { count, near }
    }

    /// The nodes of each component, over stored edges, by rising lowest node, which comes first.
    pub fn components(&self) -> Vec<Vec<usize>> {
        let mut seen = [false; LIMIT];
        let mut components = Vec::new();
        for lowest in 0..self.count {
            if !seen[lowest] {
                components.push(self.reached(lowest, &mut seen));
            }
        }
        components
    }

    /// The nodes of a component, none of which is seen yet.
    fn reached(&self, from: usize, seen: &mut [bool; LIMIT]) -> Vec<usize> {
        let mut nodes = vec![from];
        seen[from] = true;
        let mut next = 0;
        while let Some(&node) = nodes.get(next) {
            for &(other, _) in &self.near[node] {
                if !std::mem::replace(&mut seen[other], true) {
                    nodes.push(other);
                }
            }
            next += 1;
        }
        nodes
    }

    /// The name of a component.
    pub fn name(&self, nodes: &[usize]) -> Result<Name, Nameless> {
        let ends: usize = nodes.iter().map(|&node| self.near[node].len()).sum();
        if ends / 2 != nodes.len() - 1 {
            return Err(Nameless::Cycle);
        }
        if nodes.iter().flat_map(|&node| &self.near[node]).any(|&(_, edge)| whole(edge).is_none()) {
            return Err(Nameless::Fraction);
        }
        let branches: Vec<_> = nodes.iter().filter(|&&node| self.near[node].len() > 2).collect();
        match branches[..] {
            [] => of_chain(&self.chain(nodes)).ok_or(Nameless::Chain),
            [&branch] => of_arms(&self.arms(branch)).ok_or(Nameless::Arms),
            _ => Err(Nameless::Branches),
        }
    }

    /// The edges of a chain from one end to the other.
    fn chain(&self, nodes: &[usize]) -> Vec<u32> {
        let end = nodes.iter().find(|&&node| self.near[node].len() < 2).expect("a chain without an end");
        self.near[*end].first().map_or(vec![], |&(second, _)| self.walked(*end, second))
    }

    /// The edges of each arm from a branch outwards.
    fn arms(&self, branch: usize) -> Vec<Vec<u32>> {
        self.near[branch].iter().map(|&(second, _)| self.walked(branch, second)).collect()
    }

    /// The edges from a node to the next and on, as far as there is one way.
    fn walked(&self, mut from: usize, mut here: usize) -> Vec<u32> {
        let edge = |from: usize, to| self.near[from].iter().find(|way| way.0 == to).and_then(|way| whole(way.1));
        let mut edges = vec![edge(from, here).unwrap()];
        while let Some(&(next, _)) = self.near[here].iter().find(|way| way.0 != from) {
            edges.push(edge(here, next).unwrap());
            (from, here) = (here, next);
        }
        edges
    }
}

/// The number that the fraction is, if it is a whole one.
fn whole(Fraction { num, den }: Fraction) -> Option<u32> {
    (num % den == 0).then_some(num / den)
}

/// "A (n >= 1) .. B (n >= 2) .. F4 (edges 3, 4, 3) .. H3, H4 .. and I2(p), two nodes with a whole p >= 5": all edges are 3 but
/// one at most.
fn of_chain(edges: &[u32]) -> Option<Name> {
    let n = edges.len() + 1;
    let mut others = (0..edges.len()).filter(|&place| edges[place] != 3);
    let Some(place) = others.next() else { return Some(Name(b'A', n as u64)) };
    let at_end = place == 0 || place == edges.len() - 1;
    match (edges[place], n) {
        _ if others.next().is_some() => None,
        (4, _) if at_end => Some(Name(b'B', n as u64)),
        (4, 4) => Some(Name(b'F', 4)),
        (5, 3 | 4) if at_end => Some(Name(b'H', n as u64)),
        (p, 2) if p >= 5 => Some(Name(b'I', p.into())),
        _ => None,
    }
}

/// "D (n >= 4) .. E6, E7, E8": three arms of 3s, of D two of one edge, of E one of one edge and one of two.
fn of_arms(arms: &[Vec<u32>]) -> Option<Name> {
    let mut lengths: Vec<_> = arms.iter().map(Vec::len).collect();
    lengths.sort_unstable();
    let n = 1 + lengths.iter().sum::<usize>() as u64;
    match lengths[..] {
        _ if arms.iter().flatten().any(|&edge| edge != 3) => None,
        [1, 1, _] => Some(Name(b'D', n)),
        [1, 2, 2..=4] => Some(Name(b'E', n)),
        _ => None,
    }
}
