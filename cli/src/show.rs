//! `lexicon show`: what a text says, drawn and listed.

use std::io::{self, Write};

use clap::ArgMatches;
use lexicon::{Cd, Group, Groups, Node, StoredEdge};

use crate::{
    geometry::{self, Form},
    names::{decimal, fraction, name},
    output::{Outcome, Output, Status},
    refusals::what,
    sketch::sketch,
    texts,
};

pub fn run(arguments: &ArgMatches, out: &mut Output) -> Outcome {
    let Some(cd) = texts::accepted(arguments, "TEXT") else {
        return Ok(Status::Wrong);
    };
    show(&cd, out)?;
    if arguments.get_flag("geometry") {
        let form = if arguments.get_flag("bits") {
            Form::Bits
        } else {
            Form::Decimal
        };
        geometry::show(&cd, form, out)?;
    }
    Ok(Status::Fine)
}

/// Writes the drawing and the lists.
fn show(cd: &Cd, out: &mut impl Write) -> io::Result<()> {
    let drawing = sketch(cd.diagram());
    for row in &drawing {
        writeln!(out, "{row}")?;
    }
    if !drawing.is_empty() {
        writeln!(out)?;
    }
    let diagram = cd.diagram();
    let nodes = diagram.nodes.iter().enumerate();
    let nodes = nodes.map(|(i, node)| format!("{}: {}", name(i), in_words(node)));
    list(out, "nodes", nodes)?;
    list(out, "edges", diagram.edges.iter().map(joined))?;
    let minimal = if cd.minimal() {
        "yes, each component has a ringed node"
    } else {
        "no, a component has no ringed node"
    };
    writeln!(out, "minimal: {minimal}")?;
    show_groups(cd, out)
}

/// Writes the names and orders of the components' groups. Where there are none, it is said why.
fn show_groups(cd: &Cd, out: &mut impl Write) -> io::Result<()> {
    match cd.groups() {
        Ok(groups) => list(out, "groups", named(&groups).into_iter()),
        Err(refusal) => {
            let number = refusal.number();
            writeln!(out, "groups: none, refusal {number}: {}", what(&refusal))
        }
    }
}

fn list(
    out: &mut impl Write,
    what: &str,
    entries: impl ExactSizeIterator<Item = String>,
) -> io::Result<()> {
    if entries.len() == 0 {
        return writeln!(out, "{what}: none");
    }
    writeln!(out, "{what}:")?;
    for entry in entries {
        writeln!(out, "  {entry}")?;
    }
    Ok(())
}

fn in_words(node: &Node) -> String {
    match *node {
        Node::Unringed => "unringed".into(),
        Node::Ringed(length) => format!("ringed, length {}", decimal(length)),
        Node::Snub(length) => format!("snub, length {}", decimal(length)),
    }
}

fn joined(stored: &StoredEdge) -> String {
    let number = fraction(stored.edge);
    let rest = if stored.is_loop() { ", a loop" } else { "" };
    format!("{}-{}: {number}{rest}", name(stored.a), name(stored.b))
}

/// Each group by its component's first node. That of several components is their product, whose
/// order may be too large to be told.
fn named(groups: &Groups) -> Vec<String> {
    let entry = |group: &Group| {
        let (node, order) = (name(group.node()), group.order());
        format!("{node}: {}, order {order}", group.name())
    };
    let mut entries: Vec<String> = groups.iter().map(entry).collect();
    if groups.len() > 1 {
        let order = groups.order().map(|order| order.to_string());
        let order = order.unwrap_or_else(|| "at least 2^128".into());
        entries.push(format!("their product: order {order}"));
    }
    entries
}
