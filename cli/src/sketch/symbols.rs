//! How nodes are drawn.

use lexicon::Node;

use crate::names::decimal;

/// A node: `o`, `x` or `s`, and its length unless that is 1.
pub fn symbol(node: &Node) -> String {
    match *node {
        Node::Unringed => "o".into(),
        Node::Ringed(length) => with_length('x', length),
        Node::Snub(length) => with_length('s', length),
    }
}

fn with_length(letter: char, length: f64) -> String {
    match decimal(length).as_str() {
        "1" => letter.into(),
        length => format!("{letter}({length})"),
    }
}
