//! How nodes are named, and how numbers are written.

use lexicon::Edge;

/// The name of a node, as the notation's references name it: `a` is the first that was typed.
pub fn name(node: usize) -> char {
    letter(node).into()
}

/// The same as a byte.
pub fn letter(node: usize) -> u8 {
    b"abcdefghi"[node]
}

/// The names of nodes, with spaces between them.
pub fn names(nodes: impl IntoIterator<Item = usize>) -> String {
    let names = nodes.into_iter().flat_map(|node| [' ', name(node)]);
    names.skip(1).collect()
}

/// An edge's fraction, as it is typed.
pub fn fraction(edge: Edge) -> String {
    match edge.den {
        1 => edge.num.to_string(),
        den => format!("{}/{den}", edge.num),
    }
}

/// A double in the shortest decimals that give it back: `1`, `-0`, `0.1`, `1e-22`, `inf`.
pub fn decimal(double: f64) -> String {
    let text = format!("{double:?}"); // unlike `{}` it takes an exponent where zeros would be many
    text.strip_suffix(".0").map_or(text.clone(), str::to_owned)
}
