//! Straight drawings without crossings of planar graphs whose faces are known, as Tutte makes them:
//! the outer face is a regular polygon, and each other node lies in the middle of its neighbours.
//!
//! A node is added in each inner face and joined to all around it. So the inside consists of
//! triangles, of which the theorem says that none is turned over.

use super::{
    cycle::corners,
    graph::{members, only, Graph},
    plane::{point, Point},
};

/// Enough for nine nodes: the middles move less each time, by a factor well below 1.
const ROUNDS: usize = 400;

/// Draws a graph with this outer face.
pub fn draw(graph: &Graph, faces: &[Vec<usize>], outer: usize) -> Vec<Point> {
    let polygon = corners(faces[outer].len());
    let mut near: Vec<Vec<usize>> = (0..graph.len())
        .map(|node| members(graph.near(node)).collect())
        .collect();
    for (_, face) in faces.iter().enumerate().filter(|&(i, _)| i != outer) {
        let middle = near.len();
        for &node in face {
            near[node].push(middle);
        }
        near.push(face.clone());
    }
    let mut at = vec![point(0.0, 0.0); near.len()];
    for (&node, &(_, corner)) in faces[outer].iter().zip(&polygon) {
        at[node] = corner;
    }
    let fixed = faces[outer].iter().fold(0, |set, &node| set | only(node));
    for _ in 0..ROUNDS {
        for node in (0..near.len()).filter(|&node| node >= graph.len() || fixed & only(node) == 0) {
            let (sum, count) = near[node]
                .iter()
                .fold((point(0.0, 0.0), 0.0), |(sum, count), &v| {
                    (sum + at[v], count + 1.0)
                });
            at[node] = sum * (1.0 / count);
        }
    }
    at.truncate(graph.len());
    at
}
