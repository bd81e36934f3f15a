//! Faces of planar graphs, found as Demoucron, Malgrange and Pertuiset do: a cycle is drawn, then
//! path by path the rest, each path through a face that has both its ends. If a piece that is not
//! yet drawn fits into one face only, it goes there; if into none, the graph is not planar.

use super::graph::{members, only, Graph, Set};

/// Something not yet drawn: nodes that hang together, or a single edge, and the drawn nodes at
/// which it hangs.
struct Piece {
    inner: Set,
    ends: Set,
}

/// What is drawn, and the faces that it makes, each as the nodes around it.
struct Drawn {
    graph: Graph,
    nodes: Set,
    faces: Vec<Vec<usize>>,
}

/// The faces of a graph that no single node parts and that has at least three nodes, or `None` if it
/// is not planar.
pub fn faces(graph: &Graph) -> Option<Vec<Vec<usize>>> {
    let mut drawn = Drawn::first_cycle(graph)?;
    loop {
        let pieces = drawn.pieces(graph);
        let choices = pieces
            .iter()
            .map(|piece| (piece, drawn.faces_around(piece)));
        let Some((piece, faces)) = choices.min_by_key(|(_, faces)| faces.len()) else {
            return Some(drawn.faces);
        };
        let face = *faces.first()?;
        drawn.draw(face, &way_through(graph, piece)?);
    }
}

/// A path through a piece, from one of its ends to another.
fn way_through(graph: &Graph, piece: &Piece) -> Option<Vec<usize>> {
    let mut ends = members(piece.ends);
    let from = ends.next()?;
    // Of a piece with nodes the first step goes to one of them, not along an edge that is drawn.
    let Some(first) = members(graph.near(from) & piece.inner).next() else {
        return Some(vec![from, ends.next()?]);
    };
    let rest = graph.path(first, piece.inner, piece.ends & !only(from))?;
    Some([&[from], &rest[..]].concat())
}

impl Drawn {
    fn first_cycle(graph: &Graph) -> Option<Self> {
        let (a, b) = *graph.edges().first()?;
        let mut rest = graph.clone();
        rest.part(a, b);
        let cycle = rest.path(b, rest.all(), only(a))?;
        let mut drawn = Self {
            graph: Graph::new(graph.len()),
            nodes: 0,
            faces: vec![cycle.clone(), cycle.clone()],
        };
        drawn.add(&cycle);
        drawn.graph.join(a, b);
        Some(drawn)
    }

    fn add(&mut self, path: &[usize]) {
        self.nodes |= path.iter().fold(0, |set, &node| set | only(node));
        for pair in path.windows(2) {
            self.graph.join(pair[0], pair[1]);
        }
    }

    fn pieces(&self, graph: &Graph) -> Vec<Piece> {
        let hanging = graph
            .parts(graph.all() & !self.nodes)
            .into_iter()
            .map(|inner| Piece {
                inner,
                ends: members(inner).fold(0, |set, node| set | graph.near(node)) & self.nodes,
            });
        let left = |&(a, b): &(usize, usize)| {
            (only(a) | only(b)) & !self.nodes == 0 && !self.graph.joined(a, b)
        };
        let single = graph.edges().into_iter().filter(left).map(|(a, b)| Piece {
            inner: 0,
            ends: only(a) | only(b),
        });
        hanging.chain(single).collect()
    }

    /// The faces that have all ends of a piece.
    fn faces_around(&self, piece: &Piece) -> Vec<usize> {
        let has_all =
            |face: &[usize]| piece.ends & !face.iter().fold(0, |set, &v| set | only(v)) == 0;
        let faces = 0..self.faces.len();
        faces.filter(|&face| has_all(&self.faces[face])).collect()
    }

    /// Draws a path through a face, which makes two of it.
    fn draw(&mut self, face: usize, path: &[usize]) {
        self.add(path);
        let (start, end) = (path[0], path[path.len() - 1]);
        let inner = &path[1..path.len() - 1];
        let mut around = self.faces.swap_remove(face);
        let first = around.iter().position(|&node| node == start).unwrap_or(0);
        around.rotate_left(first);
        let last = around.iter().position(|&node| node == end).unwrap_or(0);
        let mut one = around[..=last].to_vec();
        one.extend(inner.iter().rev());
        let mut other = around[last..].to_vec();
        other.push(start);
        other.extend(inner);
        self.faces.extend([one, other]);
    }
}

/// A graph with edges added until no single node parts it. It stays planar: at a node that parts it,
/// two neighbours from different sides are joined, which can be drawn next to each other.
pub fn without_cut_nodes(graph: &Graph) -> Graph {
    let mut graph = graph.clone();
    while let Some((a, b)) = missing(&graph) {
        graph.join(a, b);
    }
    graph
}

/// Two neighbours of a node that lie in different parts without it.
fn missing(graph: &Graph) -> Option<(usize, usize)> {
    (0..graph.len()).find_map(|node| {
        let within = graph.all() & !only(node);
        let mut near = members(graph.near(node));
        let a = near.next()?;
        let b = near.find(|&b| graph.reach(a, within) & only(b) == 0)?;
        Some((a, b))
    })
}
