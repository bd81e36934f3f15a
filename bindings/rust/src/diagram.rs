//! Nodes, edges, and the diagrams that they make.

use std::{
    fmt,
    hash::{Hash, Hasher},
    mem::{self, Discriminant},
};

use crate::ffi::{DIAGRAM, LIMIT};

/// A node of a diagram: a mirror, and how the generator point lies to it.
///
/// Nodes are compared by their kind and the bits of their length, as they are filed: `(0)` and
/// `(-0)` differ.
#[derive(Clone, Copy, Debug)]
pub enum Node {
    /// The generator point lies in the mirror.
    Unringed,

    /// The generator point lies off the mirror, so that its reflection makes an edge of the
    /// polytope. Holds the length that the text gives.
    Ringed(f64),

    /// As [`Ringed`](Self::Ringed), but the point and its reflection are not both in the polytope.
    Snub(f64),
}

impl Node {
    /// The node's length, 0 if it is unringed.
    #[must_use]
    pub fn value(&self) -> f64 {
        match *self {
            Self::Unringed => 0.0,
            Self::Ringed(value) | Self::Snub(value) => value,
        }
    }

    /// Whether this node is ringed. A snub node is not.
    #[must_use]
    pub fn is_ringed(&self) -> bool {
        matches!(self, Self::Ringed(_))
    }

    /// What nodes are compared by.
    fn key(&self) -> (Discriminant<Self>, u64) {
        (mem::discriminant(self), self.value().to_bits())
    }
}

impl PartialEq for Node {
    fn eq(&self, other: &Self) -> bool {
        self.key() == other.key()
    }
}

impl Eq for Node {}

impl Hash for Node {
    fn hash<H: Hasher>(&self, state: &mut H) {
        self.key().hash(state);
    }
}

impl fmt::Display for Node {
    /// Writes `o`, `x(..)` or `s(..)` and ends the line, as miratope-core does.
    fn fmt(&self, f: &mut fmt::Formatter<'_>) -> fmt::Result {
        match self {
            Self::Unringed => writeln!(f, "o"),
            Self::Ringed(value) => writeln!(f, "x({value})"),
            Self::Snub(value) => writeln!(f, "s({value})"),
        }
    }
}

/// The value of an edge, a fraction: an edge x stands for an angle of π / x between two mirrors.
///
/// In a diagram it is in lowest terms, whatever was typed: `x6/2o` has the edge of `x3o`. It is plain
/// data and is compared by its numbers, so that `Edge { num: 6, den: 2 }` is another.
#[derive(Clone, Copy, Debug, PartialEq, Eq, Hash)]
pub struct Edge {
    /// The numerator.
    pub num: u32,

    /// The denominator.
    pub den: u32,
}

impl Edge {
    /// The value as a double.
    #[must_use]
    pub fn value(&self) -> f64 {
        f64::from(self.num) / f64::from(self.den)
    }

    /// Whether the numerator is twice the denominator, without wrapping. No stored edge is so.
    #[must_use]
    pub fn eq_two(&self) -> bool {
        u64::from(self.num) == 2 * u64::from(self.den)
    }
}

impl fmt::Display for Edge {
    /// Writes the numerator alone if the denominator is 1.
    fn fmt(&self, f: &mut fmt::Formatter<'_>) -> fmt::Result {
        if self.den == 1 {
            write!(f, "{}", self.num)
        } else {
            write!(f, "{} / {}", self.num, self.den)
        }
    }
}

/// An edge and the nodes that it joins. In a loop they are the same node.
#[derive(Clone, Copy, Debug, PartialEq, Eq, Hash)]
pub struct StoredEdge {
    /// The node of the lower index.
    pub a: usize,

    /// The node of the higher index.
    pub b: usize,

    /// The edge's value.
    pub edge: Edge,
}

impl StoredEdge {
    /// Whether the edge joins a node to itself.
    #[must_use]
    pub fn is_loop(&self) -> bool {
        self.a == self.b
    }
}

/// The nodes and edges of a diagram, as plain data.
///
/// A [`Cd`](crate::Cd) has one and the text beside it; a diagram that is read back from a
/// [`Record`](crate::Record) has no text.
///
/// Two diagrams are equal when they have the same nodes and the same edges, in the same order. For
/// whether they are one figure, compare records.
#[derive(Clone, Debug, PartialEq, Eq, Hash)]
pub struct Diagram {
    /// The nodes, in the order read.
    pub nodes: Vec<Node>,

    /// The edges, in the order stored and in lowest terms. An edge of value 2 is not stored, as it
    /// joins nothing.
    pub edges: Vec<StoredEdge>,
}

impl Diagram {
    /// The diagram of so many nodes that the library laid out in these numbers.
    pub(crate) fn from_numbers(numbers: &[u64; DIAGRAM], count: usize) -> Self {
        let nodes = (0..count).map(|i| node(numbers[2 * i], numbers[2 * i + 1]));
        let mut ranked = Vec::new();
        for b in 0..count {
            for a in 0..=b {
                // The pairs come after the nodes.
                let at = 2 * LIMIT + 3 * (b * (b + 1) / 2 + a);
                let rank = numbers[at];
                if rank != 0 {
                    let edge = Edge {
                        num: part(numbers[at + 1]),
                        den: part(numbers[at + 2]),
                    };
                    ranked.push((rank, StoredEdge { a, b, edge }));
                }
            }
        }
        ranked.sort_by_key(|&(rank, _)| rank);
        Self {
            nodes: nodes.collect(),
            edges: ranked.into_iter().map(|(_, stored)| stored).collect(),
        }
    }
}

/// A part of an edge: a 32-bit number, for which the library has a wider place.
pub(crate) fn part(number: impl TryInto<u32>) -> u32 {
    let narrow = number.try_into();
    narrow.unwrap_or_else(|_| unreachable!("lexicon.h has no edge beyond 32 bits"))
}

fn node(kind: u64, bits: u64) -> Node {
    match kind {
        1 => Node::Unringed,
        2 => Node::Ringed(f64::from_bits(bits)),
        3 => Node::Snub(f64::from_bits(bits)),
        _ => unreachable!("lexicon.h has no kind {kind}"),
    }
}

impl fmt::Display for Diagram {
    /// Writes what miratope-core writes of a `Cd`, where the edges stand on one line.
    fn fmt(&self, f: &mut fmt::Formatter<'_>) -> fmt::Result {
        writeln!(f, "{} Nodes", self.nodes.len())?;
        writeln!(f, "{} Edges", self.edges.len())?;
        for (i, node) in self.nodes.iter().enumerate() {
            write!(f, "Node {i}: {node}")?;
        }
        for (i, stored) in self.edges.iter().enumerate() {
            write!(f, "Edge {i}: {}", stored.edge)?;
        }
        Ok(())
    }
}
