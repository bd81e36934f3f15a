//! The symmetries that a drawing has, which are kept when its nodes are moved.

use super::{
    graph::Graph,
    plane::{distance, point, Point},
};

/// How far an image may be from the node that it should meet.
const SLACK: f64 = 1e-4;

/// A turn about the middle of a drawing, after a reflection in a level line if it flips.
pub struct Symmetry {
    /// Where it takes each node.
    to: Vec<usize>,
    by: Point,
    flips: bool,
}

fn flipped(p: Point, flips: bool) -> Point {
    point(p.x, if flips { -p.y } else { p.y })
}

/// All symmetries of a drawing that are some of its graph's too.
pub fn of(graph: &Graph, at: &[Point]) -> Vec<Symmetry> {
    let (sum, count) = at.iter().fold((point(0.0, 0.0), 0.0), |(sum, count), &p| {
        (sum + p, count + 1.0)
    });
    let middle = sum * (1.0 / count);
    let at: Vec<Point> = at.iter().map(|&p| p - middle).collect();
    let outermost = at
        .iter()
        .copied()
        .max_by(|p, q| p.length().total_cmp(&q.length()));
    let Some(outermost) = outermost.filter(|p| p.length() > SLACK) else {
        return Vec::new();
    };
    let mut found = Vec::new();
    for &image in at
        .iter()
        .filter(|p| (p.length() - outermost.length()).abs() < SLACK)
    {
        for flips in [false, true] {
            let from = flipped(outermost, flips);
            // The quotient of the two as complex numbers is the turn.
            let by = point(image.dot(from), from.area(image)) * (1.0 / from.dot(from));
            found.extend(taken(graph, &at, by, flips));
        }
    }
    found
}

/// The symmetry that turns so, if there is one.
fn taken(graph: &Graph, at: &[Point], by: Point, flips: bool) -> Option<Symmetry> {
    let image = |p: &Point| {
        let image = flipped(*p, flips).turned(by);
        at.iter().position(|&q| distance(q, image) < SLACK)
    };
    let to: Vec<usize> = at.iter().map(image).collect::<Option<_>>()?;
    let kept = |&(a, b): &(usize, usize)| graph.joined(to[a], to[b]);
    graph
        .edges()
        .iter()
        .all(kept)
        .then_some(Symmetry { to, by, flips })
}

/// The drawing after a node is moved, and with it all nodes to which symmetries take it. A node that
/// some of them fix moves as they allow.
pub fn moved(symmetries: &[Symmetry], at: &[Point], node: usize, by: Point) -> Vec<Point> {
    let mut shifts = vec![(point(0.0, 0.0), 0.0); at.len()];
    for symmetry in symmetries {
        let (sum, count) = &mut shifts[symmetry.to[node]];
        *sum = *sum + flipped(by, symmetry.flips).turned(symmetry.by);
        *count += 1.0;
    }
    let shifted = |(&p, &(sum, count)): (&Point, &(Point, f64))| {
        if count > 0.0 {
            p + sum * (1.0 / count)
        } else {
            p
        }
    };
    at.iter().zip(&shifts).map(shifted).collect()
}

/// Whether no symmetry takes a node to a lesser one.
pub fn leads(symmetries: &[Symmetry], node: usize) -> bool {
    symmetries.iter().all(|symmetry| symmetry.to[node] >= node)
}
