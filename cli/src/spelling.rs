//! Records shown on one line: as a text of the notation that the library reads back to them.

use std::{fmt::Write, sync::LazyLock};

use lexicon::{Cd, Diagram, Node, Record, StoredEdge};

use crate::{
    names::{fraction, name},
    walk::steps,
};

/// What a record holds: a text of its figure, as a person would type it. Where no text says it, as of
/// a snub node of another length than 1, its nodes and edges are listed in the record's order.
pub fn line_of(record: &Record) -> String {
    let diagram = record.diagram();
    let text = text_of(&diagram).filter(|text| {
        let read = Cd::parse_with_infinite(text);
        read.is_ok_and(|cd| cd.record() == *record)
    });
    text.unwrap_or_else(|| listing(&diagram))
}

/// A text of the diagram, which the library may still refuse as too long.
fn text_of(diagram: &Diagram) -> Option<String> {
    let mut edges = diagram.edges.clone();
    let mut typed: Vec<usize> = Vec::new();
    let mut text = String::new();
    for (from, node) in steps(diagram) {
        match from {
            Some(from) => {
                if typed.last() != Some(&from) {
                    let _ = write!(text, " *{}", reference(&typed, from));
                }
                let pair = (from.min(node), from.max(node));
                let at = edges.iter().position(|edge| (edge.a, edge.b) == pair)?;
                text += &fraction(edges.remove(at).edge);
            }
            None if typed.is_empty() => (),
            None => text.push(' '),
        }
        text += &node_text(&diagram.nodes[node])?;
        typed.push(node);
    }
    if typed.is_empty() {
        text += "*a"; // a reference adds no node
    }
    text += &further(edges, &typed);
    Some(text)
}

/// The letter by which a node is referred to, in the order typed.
fn reference(typed: &[usize], node: usize) -> char {
    let at = typed.iter().position(|&other| other == node);
    name(at.unwrap_or(typed.len()))
}

/// The edges that close rings. One that starts where the text stands goes on from there.
fn further(mut edges: Vec<StoredEdge>, typed: &[usize]) -> String {
    let mut text = String::new();
    let mut at = typed.last().copied().unwrap_or(0);
    while !edges.is_empty() {
        let next = edges.iter().position(|edge| edge.a == at || edge.b == at);
        let StoredEdge { a, b, edge } = edges.remove(next.unwrap_or(0));
        if next.is_none() {
            let _ = write!(text, " *{}", reference(typed, a));
            at = a;
        }
        at = if at == a { b } else { a };
        let _ = write!(text, "{}*{}", fraction(edge), reference(typed, at));
    }
    text
}

/// The letters that the library reads as a node, each with its node.
static LETTERS: LazyLock<Vec<(Node, char)>> = LazyLock::new(|| {
    let letters = ('A'..='Z').chain('a'..='z');
    let nodes = letters.map(|letter| (read_node(letter.to_string()), letter));
    nodes
        .filter_map(|(node, letter)| Some((node?, letter)))
        .collect()
});

/// The letter that the library reads as this node.
pub fn letter(node: &Node) -> Option<char> {
    let mut known = LETTERS.iter().filter(|(known, _)| known == node);
    known.next().map(|&(_, letter)| letter)
}

/// A node's letter, or else its length in parentheses, if one is read to the same bits.
fn node_text(node: &Node) -> Option<String> {
    if let Some(letter) = letter(node) {
        return Some(letter.to_string());
    }
    let texts = literals(node.value()).map(|literal| format!("({literal})"));
    let mut texts = texts.into_iter();
    texts.find(|text| read_node(text) == Some(*node))
}

/// The only node of a text.
fn read_node(text: impl AsRef<[u8]>) -> Option<Node> {
    let cd = Cd::parse_with_infinite(text).ok()?;
    match cd.nodes()[..] {
        [node] => Some(node),
        _ => None,
    }
}

/// Spellings of a length in the fewest digits that tell it: plain, with a power of ten, and with
/// zeros before a power of ten that the notation takes.
fn literals(value: f64) -> [String; 3] {
    let scientific = format!("{value:e}");
    [value.to_string(), padded(&scientific), scientific]
}

/// `1.5e30` as `150000000e22`, since the notation's powers of ten end at 22.
fn padded(scientific: &str) -> String {
    const GREATEST: usize = 22;
    let parts = scientific.split_once('e').and_then(|(digits, power)| {
        let (whole, after) = digits.split_once('.').unwrap_or((digits, ""));
        let power: usize = power.parse().ok()?;
        let zeros = power.checked_sub(GREATEST + after.len())?;
        Some(format!("{whole}{after}{:0<zeros$}e{GREATEST}", ""))
    });
    parts.unwrap_or_default()
}

/// Nodes and edges by name, where no text tells them.
fn listing(diagram: &Diagram) -> String {
    let nodes = diagram.nodes.iter().enumerate().map(|(i, node)| {
        let length = node.value();
        let node = match node {
            Node::Unringed => "o".into(),
            Node::Ringed(_) => node_text(node).unwrap_or_else(|| format!("({length:?})")),
            Node::Snub(_) => node_text(node).unwrap_or_else(|| format!("s({length:?})")),
        };
        format!("{} {node}", name(i))
    });
    let edges = diagram.edges.iter().map(|stored| {
        let fraction = fraction(stored.edge);
        format!("{}-{} {fraction}", name(stored.a), name(stored.b))
    });
    let all: Vec<String> = nodes.chain(edges).collect();
    format!("no text: {}", all.join(", "))
}
