//! Where the nodes of a diagram are drawn. The length of a usual edge is 1.

use std::cmp::{Ordering, Reverse};

use lexicon::{Diagram, Node};

use super::{
    cycle, general,
    graph::{members, only, Graph, Set},
    plane::{bounds, distance, from_segment, point, Point},
    tree, upright,
};

/// The least distance of two nodes, and of a node from an edge that isn't its own.
const APART: f64 = 0.7;
const ASIDE: f64 = 0.3;

/// The room between connected parts.
const GAP: f64 = 1.0;

/// A connected part of a diagram, drawn.
pub struct Part {
    pub nodes: Vec<usize>,
    /// Whether it has no cycle.
    pub tree: bool,
}

/// A diagram whose nodes have their places in the plane.
pub struct Layout {
    pub at: Vec<Point>,
    pub parts: Vec<Part>,
}

/// Lays out a diagram: its connected parts side by side, in the order of their least nodes.
pub fn layout(diagram: &Diagram) -> Layout {
    let mut graph = Graph::new(diagram.nodes.len());
    for edge in &diagram.edges {
        graph.join(edge.a, edge.b);
    }
    let mut at = vec![point(0.0, 0.0); graph.len()];
    let mut parts = Vec::new();
    let mut right = 0.0;
    for set in graph.parts(graph.all()) {
        let nodes: Vec<usize> = members(set).collect();
        let part = graph.on(&nodes);
        let tree = part.edges().len() < nodes.len();
        let places = place(
            &part,
            &Ranks {
                diagram,
                nodes: &nodes,
            },
        );
        let (low, high) = bounds(&places);
        // A tree's long chain is on the common line; other parts have their middle there.
        let line = if tree {
            0.0
        } else {
            f64::midpoint(low.y, high.y)
        };
        for (&node, &place) in nodes.iter().zip(&places) {
            at[node] = place + point(right - low.x, -line);
        }
        right += high.x - low.x + GAP;
        parts.push(Part { nodes, tree });
    }
    Layout { at, parts }
}

fn place(graph: &Graph, ranks: &Ranks) -> Vec<Point> {
    let places = match graph.edges().len().cmp(&graph.len()) {
        Ordering::Less => tree::place(graph, ranks),
        Ordering::Equal => upright::turn(graph, &cycle::place(graph, ranks)),
        Ordering::Greater => general::place(graph, ranks),
    };
    spread(graph, places)
}

/// Widens a drawing until no two nodes are too near each other, and no node to a foreign edge.
fn spread(graph: &Graph, places: Vec<Point>) -> Vec<Point> {
    let mut factor = 1.0_f64;
    for (i, &p) in places.iter().enumerate() {
        for &q in &places[..i] {
            factor = factor.max(APART / distance(p, q));
        }
        for (a, b) in graph.edges().into_iter().filter(|&(a, b)| a != i && b != i) {
            factor = factor.max(ASIDE / from_segment(p, (places[a], places[b])));
        }
    }
    places.into_iter().map(|place| place * factor).collect()
}

/// What decides between drawings that are mirror images or turns of each other.
pub struct Ranks<'a> {
    pub diagram: &'a Diagram,
    /// The nodes that are drawn, by their places in the record.
    pub nodes: &'a [usize],
}

impl Ranks<'_> {
    /// How soon a node should come when it is read from left to right: a ringed one first.
    fn kind(&self, node: usize) -> u8 {
        match self.diagram.nodes[self.nodes[node]] {
            Node::Ringed(_) => 0,
            Node::Snub(_) => 1,
            Node::Unringed => 2,
        }
    }

    /// The bits of an edge's value, which are ordered as the values.
    fn edge(&self, a: usize, b: usize) -> u64 {
        let (a, b) = (self.nodes[a], self.nodes[b]);
        let joins = |a, b| move |edge: &&lexicon::StoredEdge| edge.a == a && edge.b == b;
        let stored = self.diagram.edges.iter().find(joins(a.min(b), a.max(b)));
        stored.map_or(0, |stored| stored.edge.value().to_bits())
    }

    /// The least is how nodes along a way are best read: rings as far left as they can be, then
    /// great numbers, then the record's order.
    pub fn reading(&self, way: &[usize]) -> (Vec<u8>, Vec<Reverse<u64>>, Vec<usize>) {
        let kinds = way.iter().map(|&node| self.kind(node));
        let edges = way
            .windows(2)
            .map(|pair| Reverse(self.edge(pair[0], pair[1])));
        (kinds.collect(), edges.collect(), way.to_vec())
    }

    /// Some nodes in the order in which they are best read.
    pub fn sorted(&self, set: Set) -> Vec<usize> {
        let mut nodes: Vec<usize> = members(set).collect();
        nodes.sort_by_key(|&node| (self.kind(node), node));
        nodes
    }
}

/// The edges whose removal parts a graph.
pub fn bridges(graph: &Graph) -> Vec<(usize, usize)> {
    let parts = |&(a, b): &(usize, usize)| {
        let mut rest = graph.clone();
        rest.part(a, b);
        rest.reach(a, rest.all()) & only(b) == 0
    };
    graph.edges().into_iter().filter(parts).collect()
}
