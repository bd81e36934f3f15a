//! Prints what `Cd::parse` makes of each line of standard input, one line each:
//!
//! * accepted: `ok`, the counts of nodes and of stored edges, minimal 1 or 0; for each node `o`, or `x` or `s` with the
//!   sixteen hex digits of its value's bits; for each stored edge, in the order stored, `a-b:num/den` with a ≤ b,
//!   reduced as ticket K2 has it: "Against the Rust, stored edges are compared after reducing the Rust's";
//! * refused: `no`, document 01's number and fields;
//! * `?` where the Rust has no answer: it panics, or the text is beyond a limit of document 01.

use std::{fmt::Write, io};

use miratope::{
    cox::cd::{Cd, Node},
    diagrams::Fraction,
    lines,
};

fn main() -> io::Result<()> {
    lines::answer_each(answer)
}

fn answer(text: &[u8]) -> Option<String> {
    Some(match lines::read(text)? {
        Ok(cd) => accepted(&cd),
        Err(e) => lines::refused(e),
    })
}

fn accepted(cd: &Cd) -> String {
    let (nodes, edges) = (cd.node_count(), cd.edge_count());
    let mut line = format!("ok {nodes} {edges} {}", u8::from(cd.minimal()));
    for node in cd.node_iter() {
        match node {
            Node::Unringed => write!(line, " o"),
            Node::Ringed(value) => write!(line, " x{:016x}", value.to_bits()),
            Node::Snub(value) => write!(line, " s{:016x}", value.to_bits()),
        }
        .unwrap();
    }
    for edge in cd.raw_edges() {
        let (a, b) = (edge.source().index(), edge.target().index());
        let Fraction { num, den } = Fraction::of(edge.weight).lowest();
        write!(line, " {}-{}:{num}/{den}", a.min(b), a.max(b)).unwrap();
    }
    line
}
