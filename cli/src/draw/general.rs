//! Graphs with more than one cycle. A planar one is drawn without crossings in several ways, each is
//! bettered by moving its nodes about, and the best is taken.

use super::{
    cycle::corners,
    graph::{members, Graph},
    layout::Ranks,
    planar,
    plane::{point, Point},
    refine::Drawing,
    tree::Growth,
    tutte, upright,
};

/// How many numberings the search for faces starts from. Where a graph can be drawn in several ways,
/// they lead to different ones.
const NUMBERINGS: usize = 16;

/// How many of the drawings are bettered to the end.
const FINALISTS: usize = 8;

/// How bad a crossing is where it can't be avoided.
const CROSSING: f64 = 1.0;

/// Places the nodes of a connected graph.
pub fn place(graph: &Graph, ranks: &Ranks) -> Vec<Point> {
    let (starts, crossing) = starts(graph);
    let mut drawings: Vec<Drawing> = Vec::new();
    for start in starts {
        let mut drawing = Drawing::new(graph, start, crossing);
        drawing.refine(0.1);
        drawings.push(drawing);
    }
    drawings.extend(with_tails(graph, ranks));
    sort(&mut drawings);
    drawings.truncate(FINALISTS);
    for i in 0..drawings.len() {
        let mut other = drawings[i].clone();
        other.hop();
        drawings.push(other);
    }
    for drawing in &mut drawings {
        drawing.refine(0.0005);
    }
    sort(&mut drawings);
    let best = drawings.swap_remove(0);
    let mut upright = Drawing::new(graph, upright::turn(graph, &best.at), crossing);
    upright.align();
    upright.at
}

/// Drawings to start from, and what a crossing costs in them.
fn starts(graph: &Graph) -> (Vec<Vec<Point>>, f64) {
    let planar = planar_starts(graph);
    if planar.is_empty() {
        (round_starts(graph), CROSSING)
    } else {
        (planar, f64::INFINITY)
    }
}

/// Drawings in which the cycles are drawn first, and then each tree that hangs on them goes where
/// most room is; those in which it finds none are left out.
fn with_tails<'a>(graph: &'a Graph, ranks: &Ranks) -> Vec<Drawing<'a>> {
    let core: Vec<usize> = members(graph.core()).collect();
    if core.len() == graph.len() {
        return Vec::new();
    }
    let part = graph.on(&core);
    let (starts, crossing) = starts(&part);
    let mut drawings = Vec::new();
    for start in starts {
        let mut inner = Drawing::new(&part, start, crossing);
        inner.refine(0.1);
        let mut at = vec![point(0.0, 0.0); graph.len()];
        for (&node, &place) in core.iter().zip(&inner.at) {
            at[node] = place;
        }
        let mut growth = Growth { graph, ranks, at };
        for &node in &core {
            let (direction, free) = widest_gap(graph, &growth.at, node);
            growth.fan(node, graph.near(node) & !graph.core(), direction, free);
        }
        let mut drawing = Drawing::new(graph, growth.at, crossing);
        if drawing.cost().is_finite() {
            drawing.refine(0.1);
            drawings.push(drawing);
        }
    }
    drawings
}

/// The middle of the widest angle between the edges that go from a node to cycles, and how wide that
/// angle is.
fn widest_gap(graph: &Graph, at: &[Point], node: usize) -> (f64, f64) {
    let near = members(graph.near(node) & graph.core()).map(|other| at[other] - at[node]);
    let mut angles: Vec<f64> = near.map(|p| p.y.atan2(p.x).to_degrees()).collect();
    angles.sort_by(f64::total_cmp);
    angles.extend(angles.first().map(|first| first + 360.0));
    let gaps = angles
        .windows(2)
        .map(|pair| (f64::midpoint(pair[0], pair[1]), pair[1] - pair[0]));
    // A gap must be clearly wider to be taken in place of one before it.
    gaps.fold(
        (0.0, 0.0),
        |best, gap| if gap.1 > best.1 + 1e-6 { gap } else { best },
    )
}

/// The best first.
fn sort(drawings: &mut [Drawing]) {
    drawings.sort_by_cached_key(|drawing| drawing.cost().to_bits()); // no cost is negative
}

/// Drawings without crossings, each face being the outer one in turn; none if the graph isn't planar.
fn planar_starts(graph: &Graph) -> Vec<Vec<Point>> {
    let mut starts = Vec::new();
    let mut seen: Vec<Vec<Vec<usize>>> = Vec::new();
    for order in numberings(graph.len()) {
        let numbered = planar::without_cut_nodes(&graph.on(&order));
        let Some(faces) = planar::faces(&numbered) else {
            return Vec::new();
        };
        let known = sorted(&faces, &order);
        if seen.contains(&known) {
            continue;
        }
        seen.push(known);
        for outer in 0..faces.len() {
            let drawn = tutte::draw(&numbered, &faces, outer);
            starts.push(back(&drawn, &order));
        }
    }
    starts
}

/// Faces by the nodes' own numbers, in an order that does not depend on how they were found.
fn sorted(faces: &[Vec<usize>], order: &[usize]) -> Vec<Vec<usize>> {
    let own = |face: &Vec<usize>| {
        let mut own: Vec<usize> = face.iter().map(|&node| order[node]).collect();
        own.sort_unstable();
        own
    };
    let mut faces: Vec<Vec<usize>> = faces.iter().map(own).collect();
    faces.sort();
    faces
}

/// Regular polygons with the nodes in several orders.
fn round_starts(graph: &Graph) -> Vec<Vec<Point>> {
    let polygon: Vec<Point> = corners(graph.len())
        .iter()
        .map(|&(_, corner)| corner)
        .collect();
    let orders = numberings(graph.len());
    orders.iter().map(|order| back(&polygon, order)).collect()
}

/// The places of the nodes that stand in this order.
fn back(places: &[Point], order: &[usize]) -> Vec<Point> {
    let mut own = places.to_vec();
    for (&node, &place) in order.iter().zip(places) {
        own[node] = place;
    }
    own
}

/// Orders of so many nodes, always the same ones, beginning with their own.
fn numberings(count: usize) -> Vec<Vec<usize>> {
    let mut order: Vec<usize> = (0..count).collect();
    let mut orders = Vec::new();
    let mut state = 1_usize;
    for _ in 0..NUMBERINGS {
        orders.push(order.clone());
        for i in (1..count).rev() {
            state = (state * 1_103 + 12_345) % 65_536;
            order.swap(i, state / 8 % (i + 1));
        }
    }
    orders
}
