//! Which nodes stand on the line, and which hang below others as branches.

use lexicon::{Diagram, StoredEdge};

use crate::names::fraction;

/// Where the nodes of a diagram go.
pub struct Plan<'a> {
    pub diagram: &'a Diagram,
    /// The nodes on the line.
    pub line: Vec<usize>,
    /// For each node those that hang right below it.
    pub hung: Vec<Vec<usize>>,
}

impl<'a> Plan<'a> {
    /// Nodes that were typed one after another and are joined are a run. A run hangs on an earlier
    /// node if the edge from there to its first node is the only one that it has besides its own and
    /// those to the runs that hang on it. So whatever hangs is a tree.
    pub fn of(diagram: &'a Diagram) -> Self {
        let count = diagram.nodes.len();
        let mut above = vec![None; count];
        // From the last run to the first: what hangs on a run was typed after it.
        let mut end = count;
        while end > 0 {
            let start = start(diagram, end);
            if let Some(node) = holder(diagram, &above, start, end) {
                above[start] = Some(node);
                for (before, next) in (start..).zip(&mut above[start + 1..end]) {
                    *next = Some(before);
                }
            }
            end = start;
        }
        let hung = |node| (0..count).filter(|&b| above[b] == Some(node)).collect();
        Self {
            diagram,
            line: (0..count).filter(|&node| above[node].is_none()).collect(),
            hung: (0..count).map(hung).collect(),
        }
    }

    /// The fraction that joins two nodes, or a node to itself.
    pub fn number(&self, a: usize, b: usize) -> Option<String> {
        edge(self.diagram, a, b).map(|stored| fraction(stored.edge))
    }

    /// Whether the nodes of the line, and then those of branch after branch, are in the order in
    /// which they were typed.
    pub fn in_order(&self) -> bool {
        let mut read = self.line.clone();
        for &node in &self.line {
            self.read_branches(node, &mut read);
        }
        read.is_sorted()
    }

    fn read_branches(&self, node: usize, read: &mut Vec<usize>) {
        for &below in &self.hung[node] {
            read.push(below);
            self.read_branches(below, read);
        }
    }
}

fn edge(diagram: &Diagram, a: usize, b: usize) -> Option<&StoredEdge> {
    let pair = (a.min(b), a.max(b));
    diagram
        .edges
        .iter()
        .find(|stored| (stored.a, stored.b) == pair)
}

/// The first node of the run that ends before `end`.
fn start(diagram: &Diagram, end: usize) -> usize {
    let mut start = end - 1;
    while start > 0 && edge(diagram, start - 1, start).is_some() {
        start -= 1;
    }
    start
}

/// The node that a run hangs on, if it does.
fn holder(diagram: &Diagram, above: &[Option<usize>], start: usize, end: usize) -> Option<usize> {
    let run = start..end;
    let mut others = diagram.edges.iter().filter(|&&StoredEdge { a, b, .. }| {
        let within = run.contains(&a) && run.contains(&b) && b - a <= 1; // a loop too
        let touches = run.contains(&a) || run.contains(&b);
        touches && !within && above[b] != Some(a)
    });
    let only = others.next().filter(|_| others.next().is_none());
    only.filter(|only| only.b == start).map(|only| only.a)
}
