//! How a drawing that may be turned at will is turned.

use std::cmp::Ordering;

use super::{
    graph::Graph,
    layout::bridges,
    plane::{bounds, distance, point, Point},
};

/// How far from level, in edge lengths, still counts as level.
const SLACK: f64 = 0.02;

/// Turns a drawing so that some edge is level or upright: it is symmetric to a level or upright line
/// if possible, then tails are level, then most edges are level or upright, then it is low, then most
/// of it is at the bottom.
pub fn turn(graph: &Graph, places: &[Point]) -> Vec<Point> {
    let mut best = places.to_vec();
    let mut best_merit = merit(graph, &best);
    for (a, b) in graph.edges() {
        let along = places[b] - places[a];
        let along = along * (1.0 / along.length());
        let turns = [
            point(along.x, -along.y),
            point(-along.x, along.y),
            point(along.y, along.x),
            point(-along.y, -along.x),
        ];
        for by in turns {
            let turned: Vec<Point> = places.iter().map(|place| place.turned(by)).collect();
            let merit = merit(graph, &turned);
            if better(&merit, &best_merit) {
                (best, best_merit) = (turned, merit);
            }
        }
    }
    best
}

struct Merit {
    counts: (bool, usize, usize),
    height: f64,
    /// How much of it is at the bottom.
    weight: f64,
}

fn better(this: &Merit, that: &Merit) -> bool {
    match this.counts.cmp(&that.counts) {
        Ordering::Greater => true,
        Ordering::Less => false,
        Ordering::Equal if this.height < that.height - SLACK => true,
        Ordering::Equal => this.height < that.height + SLACK && this.weight > that.weight + SLACK,
    }
}

fn merit(graph: &Graph, places: &[Point]) -> Merit {
    let rise = |&(a, b): &(usize, usize)| (places[b].y - places[a].y).abs();
    let run = |&(a, b): &(usize, usize)| (places[b].x - places[a].x).abs();
    let level = |edges: &[(usize, usize)]| edges.iter().filter(|&edge| rise(edge) < SLACK).count();
    let edges = graph.edges();
    let upright = edges.iter().filter(|&edge| run(edge) < SLACK).count();
    let (low, high) = bounds(places);
    Merit {
        counts: (
            symmetric(places),
            level(&bridges(graph)),
            level(&edges) + upright,
        ),
        height: high.y - low.y,
        weight: places
            .iter()
            .map(|p| p.y - f64::midpoint(low.y, high.y))
            .sum(),
    }
}

/// Whether the nodes lie symmetric to a level or an upright line.
fn symmetric(places: &[Point]) -> bool {
    let (low, high) = bounds(places);
    let across = |p: &Point| point(low.x + high.x - p.x, p.y);
    let over = |p: &Point| point(p.x, low.y + high.y - p.y);
    let found = |image: Point| places.iter().any(|&p| distance(p, image) < SLACK);
    places.iter().all(|p| found(across(p))) || places.iter().all(|p| found(over(p)))
}
