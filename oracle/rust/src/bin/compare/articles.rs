//! Ticket K11: what the editing page computes of a text, by the numbers that the library answers and, apart from the port, by
//! the words of document 01 and ticket K4; and when two texts agree in it. So a library that answers two texts of a figure
//! alike, but wrongly, is caught too.

use miratope::diagrams::{Diagram, LIMIT, RINGED};

use crate::{
    figures::Figure,
    names::Joined,
    port::{Asked, Call, Port},
    run::Tally,
};

/// What texts with equal records must agree in.
#[derive(PartialEq, Debug)]
pub struct Article {
    /// 1 if the diagram is minimal, else 0.
    minimal: usize,
    /// How many stored edges join different nodes.
    edges: usize,
    names: Names,
}

/// Letter, number and order of each component, by rising lowest node; or the node of refusal 21.
type Names = Result<Vec<[u64; 3]>, usize>;

/// What `Article::count` counts, by rising place.
pub const COUNTED: [&str; 6] = [
    "pairs of spellings that are minimal",
    "pairs of spellings that are not minimal",
    "pairs of spellings with the same names in the same order",
    "pairs of spellings with the same names in another order",
    "pairs of spellings both refused with 21, for one node",
    "pairs of spellings both refused with 21, for different nodes",
];

impl Article {
    /// By what the library answers to an accepted text, whose figure is given in the order of the text's nodes: it must be the
    /// one that is due.
    pub fn of(port: &mut Port, asked: Asked, figure: &Figure, window: usize) -> Result<Self, String> {
        let (minimal, edges) = read(port, asked, window)?;
        let article = Self { minimal, edges, names: names(port, asked, window)? };
        let due = Self::due(figure);
        if article != due {
            return Err(format!("wish {}: {article:?}, {due:?} is due", asked.wish));
        }
        Ok(article)
    }

    /// "A diagram is minimal when each component, over stored edges, has a ringed node; snub doesn't count." Names are refused
    /// for the first component that has none.
    fn due(figure: &Figure) -> Self {
        let joined = Joined::from(figure);
        let components = joined.components();
        let ringed = |&node: &usize| figure.nodes()[node].kind == RINGED;
        let minimal = components.iter().all(|nodes| nodes.iter().any(ringed));
        let named = components.iter().map(|nodes| match joined.name(nodes) {
            Ok(name) => Ok([name.0.into(), name.1, name.order()]),
            Err(_) => Err(nodes[0]),
        });
        Self { minimal: minimal.into(), edges: figure.joined_pairs().count(), names: named.collect() }
    }

    /// "the same minimal mark, the same number of stored edges between different nodes, and the same names and orders as a
    /// multiset, unless both are refused with 21, whose nodes may differ"
    pub fn agrees(&self, other: &Self) -> bool {
        self.minimal == other.minimal && self.edges == other.edges && self.sorted_names() == other.sorted_names()
    }

    /// `None` if they are refused.
    fn sorted_names(&self) -> Option<Vec<[u64; 3]>> {
        let mut names = self.names.clone().ok()?;
        names.sort_unstable();
        Some(names)
    }

    /// Counts two that agree, from a place of the tally on.
    pub fn count(&self, other: &Self, place: usize, tally: &mut Tally) {
        tally.count(if self.minimal == 1 { place } else { place + 1 });
        let alike = self.names == other.names;
        tally.count(match (&self.names, alike) {
            (Ok(_), true) => place + 2,
            (Ok(_), false) => place + 3,
            (Err(_), true) => place + 4,
            (Err(_), false) => place + 5,
        });
    }
}

/// The minimal mark that `lexicon_read` tells, and how many pairs of different nodes have a rank.
fn read(port: &mut Port, asked: Asked, window: usize) -> Result<(usize, usize), String> {
    let (answer, out) = port.numbers(Call::Read(asked), window)?;
    let [0, .., minimal] = answer else { return Err(format!("lexicon_read: answer {answer:?}")) };
    let diagram = Diagram(out.try_into().unwrap());
    let pairs = (0..LIMIT).flat_map(|j| (0..j).map(move |i| (i, j)));
    Ok((minimal, pairs.filter(|&pair| diagram.rank(pair) != 0).count()))
}

/// What `lexicon_names` writes of as many components as it tells.
fn names(port: &mut Port, asked: Asked, window: usize) -> Result<Names, String> {
    match port.numbers(Call::Names(asked), window)? {
        ([0, count, 0, 0], out) if count <= LIMIT => {
            let components = out.chunks(4).take(count);
            Ok(Ok(components.map(|component| component[1..].try_into().unwrap()).collect()))
        }
        ([21, node, 0, 0], _) => Ok(Err(node)),
        (answer, _) => Err(format!("lexicon_names: answer {answer:?}")),
    }
}
