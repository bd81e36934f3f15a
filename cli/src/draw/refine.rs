//! Betters a drawing: edges of like length, nodes apart from each other and from foreign edges.

use super::{
    graph::{only, Graph},
    plane::{bounds, distance, from_segment, meet, point, toward, Point},
    symmetry::{self, Symmetry},
};

/// How much nodes that aren't joined push each other off, and nodes and foreign edges.
const PUSH: f64 = 0.3;
const EDGE_PUSH: f64 = 0.08;

/// The first step by which nodes are moved.
const STEP: f64 = 0.4;

/// How often all nodes are tried with one step.
const ROUNDS: usize = 60;

/// How much less a drawing of many symmetries costs.
const SYMMETRIC: f64 = 0.3;

/// A drawing and what it costs.
#[derive(Clone)]
pub struct Drawing<'a> {
    graph: &'a Graph,
    edges: Vec<(usize, usize)>,
    pub at: Vec<Point>,
    /// The cost of a crossing, infinite if there must be none.
    crossing: f64,
}

impl<'a> Drawing<'a> {
    pub fn new(graph: &'a Graph, at: Vec<Point>, crossing: f64) -> Self {
        Self {
            graph,
            edges: graph.edges(),
            at,
            crossing,
        }
    }

    /// What the drawing costs, less if it is symmetric.
    pub fn cost(&self) -> f64 {
        let order = symmetry::of(self.graph, &self.at)
            .iter()
            .fold(0.0, |count, _| count + 1.0);
        self.whole() * (1.0 - SYMMETRIC * (1.0 - 1.0 / f64::max(order, 1.0)))
    }

    fn whole(&self) -> f64 {
        let mut cost = 0.0;
        for node in 0..self.at.len() {
            cost += (0..node)
                .map(|other| self.apartness(node, other))
                .sum::<f64>();
        }
        for (i, &edge) in self.edges.iter().enumerate() {
            cost += self.crowding(edge) + self.crossings(edge, &self.edges[..i]);
        }
        cost
    }

    /// The part of the cost that depends on where a node is.
    fn cost_of(&self, node: usize) -> f64 {
        let others = (0..self.at.len()).filter(|&other| other != node);
        let mut cost = others.map(|other| self.apartness(node, other)).sum();
        for &edge in &self.edges {
            cost += if edge.0 == node || edge.1 == node {
                self.crowding(edge) + self.crossings(edge, &self.edges)
            } else {
                self.closeness(node, edge)
            };
        }
        cost
    }

    /// What two nodes cost by their distance.
    fn apartness(&self, node: usize, other: usize) -> f64 {
        let apart = distance(self.at[node], self.at[other]);
        if self.graph.joined(node, other) {
            apart + 1.0 / apart - 2.0
        } else {
            PUSH / (apart * apart)
        }
    }

    /// What an edge costs by the nodes that it is close to.
    fn crowding(&self, edge: (usize, usize)) -> f64 {
        let others = (0..self.at.len()).filter(|&node| node != edge.0 && node != edge.1);
        others.map(|node| self.closeness(node, edge)).sum()
    }

    fn closeness(&self, node: usize, (a, b): (usize, usize)) -> f64 {
        let aside = from_segment(self.at[node], (self.at[a], self.at[b]));
        EDGE_PUSH / (aside * aside)
    }

    /// What an edge costs by those of some edges that it crosses.
    fn crossings(&self, (a, b): (usize, usize), edges: &[(usize, usize)]) -> f64 {
        let ends = (self.at[a], self.at[b]);
        let crossed = |&&(c, d): &&(usize, usize)| {
            (only(a) | only(b)) & (only(c) | only(d)) == 0 && meet(ends, (self.at[c], self.at[d]))
        };
        edges.iter().filter(crossed).map(|_| self.crossing).sum()
    }

    /// Moves nodes as long as it makes the drawing better, in steps that become this small. What
    /// symmetries the drawing has, it keeps.
    pub fn refine(&mut self, least: f64) {
        let symmetries = symmetry::of(self.graph, &self.at);
        let mut step = STEP;
        while step > least {
            let moved = (0..ROUNDS)
                .take_while(|_| self.round(step, &symmetries))
                .count();
            step *= if moved == 0 { 0.5 } else { 0.7 };
        }
    }

    /// Tries each node in eight directions; whether any was moved.
    fn round(&mut self, step: f64, symmetries: &[Symmetry]) -> bool {
        let steps: Vec<Point> = [0.0, 45.0, 90.0, 135.0, 180.0, 225.0, 270.0, 315.0]
            .map(|degrees| toward(degrees) * step)
            .to_vec();
        let mut moved = false;
        for node in 0..self.at.len() {
            if symmetries.len() < 2 {
                let places: Vec<Point> = steps.iter().map(|&by| self.at[node] + by).collect();
                moved |= self.try_places(node, &places);
            } else if symmetry::leads(symmetries, node) {
                moved |= self.try_steps(node, &steps, symmetries);
            }
        }
        moved
    }

    /// Moves a node, and its images, by the best of these steps, if that is better.
    fn try_steps(&mut self, node: usize, steps: &[Point], symmetries: &[Symmetry]) -> bool {
        let from = self.at.clone();
        let (mut best, mut least) = (None, self.whole() - 1e-12);
        for &by in steps {
            self.at = symmetry::moved(symmetries, &from, node, by);
            let cost = self.whole();
            if cost < least {
                (best, least) = (Some(self.at.clone()), cost);
            }
        }
        let moved = best.is_some();
        self.at = best.unwrap_or(from);
        moved
    }

    /// Tries each node with few neighbours at places all over the drawing, so that it can leave a
    /// face for another.
    pub fn hop(&mut self) {
        for node in (0..self.at.len()).filter(|&node| self.graph.near(node).count_ones() < 4) {
            let (low, high) = bounds(&self.at);
            let mut places = Vec::new();
            let mut y = low.y - 1.0;
            while y < high.y + 1.0 {
                let mut x = low.x - 1.0;
                while x < high.x + 1.0 {
                    places.push(point(x, y));
                    x += 0.25;
                }
                y += 0.25;
            }
            self.try_places(node, &places);
        }
    }

    /// Puts a node at the best of these places, if it is better than its own.
    fn try_places(&mut self, node: usize, places: &[Point]) -> bool {
        let from = self.at[node];
        let (mut best, mut least) = (from, self.cost_of(node) - 1e-12);
        for &place in places {
            self.at[node] = place;
            let cost = self.cost_of(node);
            if cost < least {
                (best, least) = (place, cost);
            }
        }
        self.at[node] = best;
        best != from
    }

    /// Makes nodes level or upright to each other that almost are, unless that costs much.
    pub fn align(&mut self) {
        let before = (self.at.clone(), self.whole());
        align(self.at.iter_mut().map(|p| &mut p.x).collect());
        align(self.at.iter_mut().map(|p| &mut p.y).collect());
        if self.whole() > before.1 * ALIGNED {
            self.at = before.0;
        }
    }
}

/// How near two coordinates are that are made one, and what that may cost.
const NEAR: f64 = 0.17;
const ALIGNED: f64 = 1.1;

/// Gives coordinates that are almost alike their mean.
fn align(mut coordinates: Vec<&mut f64>) {
    coordinates.sort_by(|this, that| this.total_cmp(that));
    for group in coordinates.chunk_by_mut(|this, that| **that - **this < NEAR) {
        let (sum, count) = group
            .iter()
            .fold((0.0, 0.0), |(sum, count), x| (sum + **x, count + 1.0));
        for x in group {
            **x = sum / count;
        }
    }
}
