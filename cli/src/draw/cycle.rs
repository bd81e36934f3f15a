//! A single cycle: a regular polygon, from which trees grow outward.

use super::{
    graph::{members, only, Graph},
    layout::Ranks,
    plane::{point, toward, Point},
    tree::Growth,
};

/// Places the nodes of a connected graph that has as many edges as nodes.
pub fn place(graph: &Graph, ranks: &Ranks) -> Vec<Point> {
    let core = graph.core();
    let cycle = reading(graph, ranks);
    let mut growth = Growth {
        graph,
        ranks,
        at: vec![point(0.0, 0.0); graph.len()],
    };
    let corners = corners(cycle.len());
    let free = 180.0 + turn(cycle.len());
    for (&node, &(angle, corner)) in cycle.iter().zip(&corners) {
        growth.at[node] = corner;
        growth.fan(node, graph.near(node) & !core, angle, free);
    }
    growth.at
}

/// The angle of which a regular polygon turns at a corner.
fn turn(corners: usize) -> f64 {
    #[allow(clippy::cast_precision_loss, reason = "at most nine")]
    let corners = corners as f64;
    360.0 / corners
}

/// The corners of a regular polygon whose sides are 1 long, clockwise from the top or from the left
/// one of two at the top, so that it stands on a side; each with its direction from the middle.
pub fn corners(count: usize) -> Vec<(f64, Point)> {
    let step = turn(count);
    let radius = 0.5 / toward(90.0 - step / 2.0).x;
    let mut angle = if count % 2 == 1 {
        270.0
    } else {
        270.0 - step / 2.0
    };
    let mut corners = Vec::new();
    for _ in 0..count {
        corners.push((angle, toward(angle) * radius));
        angle += step;
    }
    corners
}

/// The nodes of the cycle, from the start and in the sense in which they read best.
fn reading(graph: &Graph, ranks: &Ranks) -> Vec<usize> {
    let core = graph.core();
    let around = |(a, b): (usize, usize)| {
        // The way from b back to a that isn't the edge between them.
        let mut rest = graph.clone();
        rest.part(a, b);
        rest.path(b, core, only(a))
    };
    let starts = members(core).flat_map(|a| members(graph.near(a) & core).map(move |b| (a, b)));
    let closed = starts.filter_map(around);
    let best = closed.min_by_key(|cycle| ranks.reading(cycle));
    best.unwrap_or_default()
}
