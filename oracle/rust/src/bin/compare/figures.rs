//! Figures: what a filing record tells of a diagram. Document 01's layout, the smallest numbering and sameness, ticket K9's
//! first of the smallest, and what ticket K5 says of reading a record, written from their words and apart from the port.

use std::cmp::Ordering;

use miratope::{
    cox::cd::Cd,
    diagrams::{Diagram, Fraction, Place, EMPTY, LIMIT, SNUB, UNRINGED},
};

pub const RECORD: usize = 370;

/// The node that a place goes to; past the last node place i has i.
pub type Numbering = [usize; LIMIT];

pub const PLAIN: Numbering = [0, 1, 2, 3, 4, 5, 6, 7, 8];

/// What a record has for two nodes that nothing joins.
pub const UNJOINED: Fraction = Fraction { num: 2, den: 1 };

/// The nodes of a diagram and the fraction between every two of them.
#[derive(Clone, Copy, PartialEq)]
pub struct Figure {
    pub count: usize,
    nodes: [Place; LIMIT],
    pairs: [[Fraction; LIMIT]; LIMIT],
}

/// What reading 370 bytes comes to, by ticket K5.
pub enum ReadBack {
    /// The record of the figure, in the record's numbering.
    Record(Figure),
    /// 14: "the bytes are not what the filing section lays out for any diagram in any numbering".
    NoLayout,
    /// 22: "a well laid out record that isn't the smallest of its renumberings", "tested after 14".
    NotSmallest,
}

impl ReadBack {
    pub fn of(bytes: &[u8; RECORD]) -> Self {
        match Figure::laid_out(bytes) {
            None => Self::NoLayout,
            Some(figure) if figure.renumbered(&figure.first_smallest()).layout() != *bytes => Self::NotSmallest,
            Some(figure) => Self::Record(figure),
        }
    }
}

impl Figure {
    pub fn new(nodes: &[Place]) -> Self {
        let mut figure = Self { count: nodes.len(), nodes: [EMPTY; LIMIT], pairs: [[UNJOINED; LIMIT]; LIMIT] };
        figure.nodes[..nodes.len()].copy_from_slice(nodes);
        figure
    }

    /// "Loops are disregarded."
    pub fn of(cd: &Cd) -> Self {
        let mut figure = Self::new(&[EMPTY; LIMIT][..cd.node_count()]);
        for (i, node) in cd.node_iter().enumerate() {
            figure.set(i, Place::of(node));
        }
        for edge in cd.raw_edges() {
            let (a, b) = (edge.source().index(), edge.target().index());
            if a != b {
                figure.join(a, b, Fraction::of(edge.weight).lowest());
            }
        }
        figure
    }

    pub fn nodes(&self) -> &[Place] {
        &self.nodes[..self.count]
    }

    /// Whether a length is infinite, so that only the wish lets the figure's texts be read.
    pub fn is_infinite(&self) -> bool {
        self.nodes().iter().any(|node| f64::from_bits(node.bits).is_infinite())
    }

    pub fn set(&mut self, node: usize, place: Place) {
        self.nodes[node] = place;
    }

    pub fn pair(&self, a: usize, b: usize) -> Fraction {
        self.pairs[a][b]
    }

    pub fn join(&mut self, a: usize, b: usize, fraction: Fraction) {
        self.pairs[a][b] = fraction;
        self.pairs[b][a] = fraction;
    }

    pub fn joined(&self, a: usize, b: usize) -> bool {
        self.pairs[a][b] != UNJOINED
    }

    /// The pairs i < j by rising j and then rising i, as a record has them.
    pub fn all_pairs(&self) -> impl Iterator<Item = (usize, usize)> {
        (0..self.count).flat_map(|j| (0..j).map(move |i| (i, j)))
    }

    /// Those of them that an edge joins.
    pub fn joined_pairs(&self) -> impl Iterator<Item = (usize, usize)> + '_ {
        self.all_pairs().filter(|&(i, j)| self.joined(i, j))
    }

    /// The figure whose node i is this one's numbering[i].
    pub fn renumbered(&self, numbering: &Numbering) -> Self {
        let mut other = *self;
        for i in 0..self.count {
            other.nodes[i] = self.nodes[numbering[i]];
            for j in 0..self.count {
                other.pairs[i][j] = self.pairs[numbering[i]][numbering[j]];
            }
        }
        other
    }

    /// Document 01's bytes, in the figure's own numbering.
    pub fn layout(&self) -> [u8; RECORD] {
        let mut bytes = [0; RECORD];
        bytes[0] = self.count as u8;
        for (i, node) in self.nodes().iter().enumerate() {
            let at = 1 + 9 * i;
            bytes[at] = node.kind;
            bytes[at + 1..at + 9].copy_from_slice(&node.bits.to_be_bytes());
        }
        for (i, j) in self.all_pairs() {
            let (at, fraction) = (82 + 8 * (j * (j - 1) / 2 + i), self.pairs[i][j]);
            bytes[at..at + 4].copy_from_slice(&fraction.num.to_be_bytes());
            bytes[at + 4..at + 8].copy_from_slice(&fraction.den.to_be_bytes());
        }
        bytes
    }

    /// The figure that has the bytes for its layout in its own numbering. `None` if none has: then no diagram has them in any
    /// numbering, for the figure that they spell would have them in its own.
    pub fn laid_out(bytes: &[u8; RECORD]) -> Option<Self> {
        let count = usize::from(bytes[0]);
        if count > LIMIT {
            return None;
        }
        let mut figure = Self::new(&[EMPTY; LIMIT][..count]);
        for i in 0..count {
            let at = 1 + 9 * i;
            let (kind, bits) = (bytes[at], u64::from_be_bytes(bytes[at + 1..at + 9].try_into().unwrap()));
            if !(UNRINGED..=SNUB).contains(&kind) || f64::from_bits(bits).is_nan() {
                return None;
            }
            figure.set(i, if kind == UNRINGED { EMPTY } else { Place { kind, bits } });
        }
        for (i, j) in figure.all_pairs() {
            let at = 82 + 8 * (j * (j - 1) / 2 + i);
            let number = |at: usize| u32::from_be_bytes(bytes[at..at + 4].try_into().unwrap());
            let (num, den) = (number(at), number(at + 4));
            if num <= 1 || den == 0 || den >= num {
                return None;
            }
            figure.join(i, j, Fraction { num, den }.lowest());
        }
        // What the fields do not tell shows here: fillers, terms not lowest, bits of an unringed node.
        (figure.layout() == *bytes).then_some(figure)
    }

    /// Of the numberings whose layout is the smallest the first, "comparing the list of old nodes in new order as numbers
    /// from the left". The nodes' bytes come first, so the nodes stand sorted; then come the pairs, node by node. Of all
    /// numberings begun, those go on whose last node's pairs are the smallest.
    pub fn first_smallest(&self) -> Numbering {
        let mut sorted = self.nodes;
        sorted[..self.count].sort_unstable();
        let mut begun = vec![PLAIN];
        for place in 0..self.count {
            let mut least = [UNJOINED; LIMIT];
            let mut going_on: Vec<Numbering> = Vec::new();
            for numbering in &begun {
                let free = (0..self.count).filter(|node| !numbering[..place].contains(node));
                for node in free.filter(|&node| self.nodes[node] == sorted[place]) {
                    let mut pairs = [UNJOINED; LIMIT];
                    for (pair, &earlier) in pairs.iter_mut().zip(&numbering[..place]) {
                        *pair = self.pairs[earlier][node];
                    }
                    let order = if going_on.is_empty() { Ordering::Less } else { pairs.cmp(&least) };
                    if order == Ordering::Less {
                        going_on.clear();
                        least = pairs;
                    }
                    if order != Ordering::Greater {
                        let mut longer = *numbering;
                        longer[place] = node;
                        going_on.push(longer);
                    }
                }
            }
            begun = going_on;
        }
        begun.into_iter().min().unwrap()
    }

    /// The smallest layout and the first numbering that gives it, by trying all one by one: slow beyond five nodes.
    pub fn smallest_of_all(&self) -> ([u8; RECORD], Numbering) {
        let mut least = (self.layout(), PLAIN);
        self.try_all(&mut PLAIN.clone(), 0, &mut least);
        least
    }

    /// Tries all renumberings that go on from the first `place` places.
    fn try_all(&self, numbering: &mut Numbering, place: usize, least: &mut ([u8; RECORD], Numbering)) {
        if place == self.count {
            *least = (self.renumbered(numbering).layout(), *numbering).min(*least);
        }
        for later in place..self.count {
            numbering.swap(place, later);
            self.try_all(numbering, place + 1, least);
            numbering.swap(place, later);
        }
    }

    /// Whether some renumbering carries this figure onto the other.
    pub fn same(&self, other: &Self) -> bool {
        self.count == other.count && self.carried(other, &mut PLAIN.clone(), 0)
    }

    /// Whether the images of the first `place` nodes can be gone on with.
    fn carried(&self, other: &Self, images: &mut Numbering, place: usize) -> bool {
        if place == self.count {
            return true;
        }
        (0..self.count).any(|image| {
            let fits = !images[..place].contains(&image)
                && self.nodes[place] == other.nodes[image]
                && (0..place).all(|i| self.pairs[i][place] == other.pairs[images[i]][image]);
            images[place] = image;
            fits && self.carried(other, images, place + 1)
        })
    }

    /// What `lexicon_read_record` writes for the figure in its own numbering, and the count of its edges.
    pub fn diagram(&self) -> (Diagram, usize) {
        let mut diagram = Diagram::new(self.nodes().iter().copied());
        let mut edges = 0;
        for (i, j) in self.joined_pairs() {
            edges += 1;
            diagram.put(edges, (i, j), self.pairs[i][j]);
        }
        (diagram, edges)
    }
}
