//! Trees: a longest chain lies level, and what branches off it goes straight down or up.

use super::{
    graph::{members, only, Graph, Set},
    layout::Ranks,
    plane::{point, toward, Point},
};

/// Nodes that grow out of others.
pub struct Growth<'a> {
    pub graph: &'a Graph,
    pub ranks: &'a Ranks<'a>,
    pub at: Vec<Point>,
}

/// Places the nodes of a tree.
pub fn place(graph: &Graph, ranks: &Ranks) -> Vec<Point> {
    let spine = spine(graph, ranks);
    let at = vec![point(0.0, 0.0); graph.len()];
    let mut growth = Growth { graph, ranks, at };
    let mut level = 0.0;
    for &node in &spine {
        growth.at[node] = point(level, 0.0);
        level += 1.0;
    }
    if spine.len() == 3 {
        growth.star(spine[1], spine[0]);
    } else {
        growth.branches(&spine);
    }
    growth.at
}

/// Of the longest chains the one that reads best from left to right.
fn spine(graph: &Graph, ranks: &Ranks) -> Vec<usize> {
    let all = graph.all();
    let mut chains: Vec<Vec<usize>> = (0..graph.len()).map(|node| vec![node]).collect();
    for from in 0..graph.len() {
        chains.extend(members(all).filter_map(|to| graph.path(from, all, only(to))));
    }
    let longest = chains.iter().map(Vec::len).max();
    chains.retain(|chain| Some(chain.len()) == longest);
    let best = chains.into_iter().min_by_key(|chain| ranks.reading(chain));
    best.unwrap_or_default()
}

impl Growth<'_> {
    /// All of a star's leaves around its middle, in equal angles.
    fn star(&mut self, middle: usize, left: usize) {
        let mut leaves = self.ranks.sorted(self.graph.near(middle) & !only(left));
        leaves.insert(0, left);
        let mut angle = 180.0;
        for &leaf in &leaves {
            self.at[leaf] = self.at[middle] + toward(angle);
            angle += 360.0 / f64::from(self.graph.near(middle).count_ones());
        }
    }

    /// What branches off a chain of at least four nodes, or of one or two, off which nothing does.
    fn branches(&mut self, spine: &[usize]) {
        let chain = spine.iter().fold(0, |set, &node| set | only(node));
        for (i, &node) in spine.iter().enumerate() {
            let off = self.graph.near(node) & !chain;
            if off == 0 {
                continue;
            }
            // Next to an end all branches are leaves, since no chain is longer. They make a fork
            // with that end.
            if i == 1 {
                self.fan(node, off | only(spine[0]), 180.0, 360.0);
            } else if i + 2 == spine.len() {
                self.fan(node, off | only(spine[i + 1]), 0.0, 360.0);
            } else {
                self.down_and_up(node, off);
            }
        }
    }

    /// The branches at the inside of a chain, which are at most four, the greatest first.
    fn down_and_up(&mut self, node: usize, off: Set) {
        let within = self.graph.all() & !only(node);
        let mut branches = self.ranks.sorted(off);
        branches.sort_by_key(|&branch| {
            usize::MAX - self.graph.reach(branch, within).count_ones() as usize
        });
        let angles: &[f64] = match branches.len() {
            0..=2 => &[90.0, 270.0],
            3 => &[90.0, 240.0, 300.0],
            _ => &[120.0, 60.0, 240.0, 300.0],
        };
        for (&branch, &angle) in branches.iter().zip(angles) {
            self.grow(node, branch, angle);
        }
    }

    /// Spreads some neighbours of a node, and what grows out of them, evenly about a direction,
    /// within an angle that is free.
    pub fn fan(&mut self, node: usize, off: Set, direction: f64, free: f64) {
        let count = f64::from(off.count_ones());
        let wish: f64 = match off.count_ones() {
            0..=2 => 90.0,
            3 => 60.0,
            _ => 45.0,
        };
        let step = wish.min(free / (count + 1.0));
        let mut angle = direction - step * (count - 1.0) / 2.0;
        // From top to bottom, whether the fan opens to the right or to the left.
        let mut branches = self.ranks.sorted(off);
        if toward(direction).x < 0.0 {
            branches.reverse();
        }
        for branch in branches {
            self.grow(node, branch, angle);
            angle += step;
        }
    }

    /// Places a node in this direction of another, and all that lies behind it.
    fn grow(&mut self, from: usize, node: usize, angle: f64) {
        self.at[node] = self.at[from] + toward(angle);
        let behind = self.graph.near(node) & !only(from);
        self.fan(node, behind, angle, 360.0);
    }
}
