//! A diagram drawn in characters: chains on a line, branches, loops and all other edges below it.
//!
//! A drawing is read so. Lines that no number parts belong to one node, and a number joins the nodes
//! whose lines are at its ends. `+` joins lines; a `|` within a row of `-` passes across it.
//!
//! It is exact because each node of the line has its own columns, up to those of the next. What hangs
//! on it stays there, and the brackets that pass are all above it or all below. Only brackets leave
//! these columns, and in a row they do not touch.

mod brackets;
mod branches;
mod plan;
mod symbols;

use lexicon::Diagram;

use crate::names::name;
use brackets::{Bracket, Lines};
use branches::{below, width};
use plan::Plan;
use symbols::symbol;

/// The columns that are left between things side by side.
const MARGIN: usize = 3;

/// The rows of a diagram's drawing, none if it has no nodes. If the line and then branch after branch
/// are not in the order of typing, the nodes have their names: on a row of their own for the line, to
/// the right for the rest.
pub fn sketch(diagram: &Diagram) -> Vec<String> {
    let plan = Plan::of(diagram);
    let named = !plan.in_order();
    let hanging: Vec<_> = plan
        .line
        .iter()
        .map(|&node| below(&plan, named, node))
        .collect();
    let mut brackets = brackets::of(&plan);
    let columns = columns(&plan, &hanging, &brackets);
    brackets::give_rows(&mut brackets, &hanging);

    let mut drawing = Drawing::default();
    draw_line(&mut drawing, &plan, &columns);
    let lines = Lines::new(&hanging, &brackets, columns);
    brackets::draw(&mut drawing, &lines, &brackets);
    for (at, rows) in hanging.iter().enumerate() {
        for (row, text) in (1 + lines.base[at]..).zip(rows) {
            drawing.put(row, lines.columns[at], text);
        }
    }
    let mut rows = drawing.rows();
    if named {
        rows.insert(0, names_above(&plan, &lines.columns));
    }
    rows
}

/// The column of each node on the line, such that what hangs fits between and each bracket has a place
/// for its number.
fn columns(plan: &Plan, hanging: &[Vec<String>], brackets: &[Bracket]) -> Vec<usize> {
    let mut steps = Vec::new();
    for (at, pair) in plan.line.windows(2).enumerate() {
        let number = plan.number(pair[0], pair[1]);
        let gap = number.map_or(0, |number| number.len() + 2).max(MARGIN);
        let symbol = symbol(&plan.diagram.nodes[pair[0]]);
        steps.push((symbol.len() + gap).max(width(&hanging[at]) + MARGIN));
    }
    for bracket in brackets {
        let needed = bracket.number.len() + 3; // a `-` on each side, and the node's own column
        let span = &mut steps[bracket.from..bracket.to];
        if span.iter().all(|&step| step < needed) {
            span[(span.len() - 1) / 2] = needed;
        }
    }
    let mut columns = vec![0; plan.line.len()];
    for (at, step) in steps.iter().enumerate() {
        columns[at + 1] = columns[at] + step;
    }
    columns
}

/// Draws the nodes of the line, and the edges between neighbours.
fn draw_line(drawing: &mut Drawing, plan: &Plan, columns: &[usize]) {
    for (at, &node) in plan.line.iter().enumerate() {
        let symbol = symbol(&plan.diagram.nodes[node]);
        drawing.put(0, columns[at], &symbol);
        let next = plan.line.get(at + 1);
        if let Some(number) = next.and_then(|&next| plan.number(node, next)) {
            let from = columns[at] + symbol.len();
            let gap = columns[at + 1] - from;
            drawing.put(0, from, &format!("{number:-^gap$}"));
        }
    }
}

fn names_above(plan: &Plan, columns: &[usize]) -> String {
    let mut row = String::new();
    for (&node, &column) in plan.line.iter().zip(columns) {
        row = format!("{row:column$}{}", name(node));
    }
    row
}

/// Rows of characters.
#[derive(Default)]
struct Drawing(Vec<Vec<u8>>);

impl Drawing {
    /// Writes a text over what is there.
    fn put(&mut self, row: usize, column: usize, text: &str) {
        if self.0.len() <= row {
            self.0.resize(row + 1, vec![]);
        }
        let end = column + text.len();
        let row = &mut self.0[row];
        row.resize(row.len().max(end), b' ');
        row[column..end].copy_from_slice(text.as_bytes());
    }

    fn rows(&self) -> Vec<String> {
        let rows = self.0.iter().map(|row| String::from_utf8_lossy(row));
        rows.map(|row| row.trim_end().to_owned()).collect()
    }
}
