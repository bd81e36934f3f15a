//! Nodes, fractions, and diagrams as `lexicon_read` lays them out.

use crate::cox::cd::{Cd, Edge, Node};

pub const LIMIT: usize = 9;
pub const DIAGRAM: usize = 153;

pub const UNRINGED: u8 = 1;
pub const RINGED: u8 = 2;
pub const SNUB: u8 = 3;

/// A node: its kind, and the bits of its length, 0 if unringed. The order is that of its nine bytes in a record.
#[derive(Clone, Copy, PartialEq, Eq, PartialOrd, Ord)]
pub struct Place {
    pub kind: u8,
    pub bits: u64,
}

pub const EMPTY: Place = Place { kind: UNRINGED, bits: 0 };

impl Place {
    pub fn of(node: Node) -> Self {
        match node {
            Node::Unringed => EMPTY,
            Node::Ringed(value) => Self { kind: RINGED, bits: value.to_bits() },
            Node::Snub(value) => Self { kind: SNUB, bits: value.to_bits() },
        }
    }
}

/// The order is that of the eight bytes in a record.
#[derive(Clone, Copy, PartialEq, Eq, PartialOrd, Ord)]
pub struct Fraction {
    pub num: u32,
    pub den: u32,
}

impl Fraction {
    /// The Rust's, as typed.
    pub fn of(edge: Edge) -> Self {
        Self { num: edge.num, den: edge.den }
    }

    pub fn is_lowest(self) -> bool {
        self == self.lowest()
    }

    pub fn lowest(self) -> Self {
        let divisor = gcd(self.num, self.den);
        Self { num: self.num / divisor, den: self.den / divisor }
    }
}

fn gcd(a: u32, b: u32) -> u32 {
    if b == 0 {
        a
    } else {
        gcd(b, a % b)
    }
}

/// What `lexicon_read` writes: kind and length of nine nodes, then rank, num and den of every pair.
#[repr(transparent)]
pub struct Diagram(pub [u64; DIAGRAM]);

impl Diagram {
    pub fn new(nodes: impl Iterator<Item = Place>) -> Self {
        let mut diagram = Self([0; DIAGRAM]);
        diagram.put_nodes(nodes);
        diagram
    }

    /// The Rust's as the port must have it. Ticket K2: "Against the Rust, stored edges are compared after reducing the
    /// Rust's."
    pub fn of(cd: &Cd) -> Self {
        let mut diagram = Self([0; DIAGRAM]);
        diagram.put_all(cd, Fraction::lowest);
        diagram
    }

    /// The Rust's over what is there, its edges as typed.
    pub fn lay_out(&mut self, cd: &Cd) {
        self.put_all(cd, |typed| typed);
    }

    /// The nodes and, in the order stored, the edges, each with what is made of its fraction as typed.
    fn put_all(&mut self, cd: &Cd, made: impl Fn(Fraction) -> Fraction) {
        self.put_nodes(cd.node_iter().map(Place::of));
        self.0[2 * LIMIT..].fill(0);
        for (i, edge) in cd.raw_edges().iter().enumerate() {
            let ends = (edge.source().index(), edge.target().index());
            self.put(i + 1, ends, made(Fraction::of(edge.weight)));
        }
    }

    fn put_nodes(&mut self, nodes: impl Iterator<Item = Place>) {
        let places = nodes.chain(std::iter::repeat(EMPTY));
        for (out, place) in self.0[..2 * LIMIT].chunks_mut(2).zip(places) {
            out.copy_from_slice(&[place.kind.into(), place.bits]);
        }
    }

    /// The edge between two nodes, in either order, and its rank.
    pub fn put(&mut self, rank: usize, ends: (usize, usize), fraction: Fraction) {
        let at = place(ends);
        self.0[at..at + 3].copy_from_slice(&[rank as u64, fraction.num.into(), fraction.den.into()]);
    }

    /// The rank of the edge between two nodes, in either order; 0 if nothing joins them.
    pub fn rank(&self, ends: (usize, usize)) -> u64 {
        self.0[place(ends)]
    }
}

/// Where the numbers of a pair begin.
fn place((a, b): (usize, usize)) -> usize {
    let (i, j) = (a.min(b), a.max(b));
    2 * LIMIT + 3 * (j * (j + 1) / 2 + i)
}
