//! The sizes of what is drawn, in pixels of 1/96 inch.

use lexicon::Node;

use super::plane::{point, Point};

/// The length of a usual edge.
pub const UNIT: f64 = 54.0;

/// The radius of a dot, and of a ring or an open circle.
pub const DOT: f64 = 3.6;
pub const RING: f64 = 8.0;

/// The radius of a loop's round part, and how far its middle is from the loop's tip.
pub const LOOP: f64 = 6.5;
pub const LOOP_OFF: f64 = 14.0;

pub const STROKE: f64 = 1.3;

/// The heights of the letters of an edge's number and of a node's length.
pub const NUMBER: f64 = 13.0;
pub const LENGTH: f64 = 11.0;

/// What is kept free around anything written.
pub const CLEAR: f64 = 2.5;

/// What is kept free around the nodes, which is enough for loops. It is there without loops too, so
/// that they change nothing else.
pub const MARGIN: f64 = 36.0;

/// Half the width and half the height of what is written, for most serif fonts.
pub fn half(text: &str, size: f64) -> Point {
    let width: f64 = text
        .chars()
        .map(|c| match c {
            '.' | '/' => 0.34,
            '−' | '∞' => 0.75,
            _ => 0.56,
        })
        .sum();
    point(size * width / 2.0, size * 0.35)
}

/// How far a node reaches.
pub fn radius(node: Node) -> f64 {
    match node {
        Node::Unringed => DOT,
        Node::Ringed(_) | Node::Snub(_) => RING + STROKE / 2.0,
    }
}
