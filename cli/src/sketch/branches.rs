//! What hangs below a node: its loop, then its branches side by side.

use super::{plan::Plan, symbols::symbol, MARGIN};
use crate::names::name;

/// The rows below a node, whose own column is the first. They begin with `|`, or there are none.
pub fn below(plan: &Plan, named: bool, node: usize) -> Vec<String> {
    let mut rows = plan
        .number(node, node)
        .map_or(vec![], |number| ring(&number));
    let branches = plan.hung[node].iter().map(|&first| {
        let number = plan.number(node, first).unwrap_or_default();
        let mut text = symbol(&plan.diagram.nodes[first]);
        if named {
            text.extend([' ', name(first)]);
        }
        let mut branch = vec!["|".into(), number, "|".into(), text];
        branch.extend(below(plan, named, first));
        branch
    });
    rows.extend(side_by_side(&branches.collect::<Vec<_>>()));
    rows
}

/// A loop.
fn ring(number: &str) -> Vec<String> {
    let width = number.len() + 2;
    vec![
        "|".into(),
        format!("+-{number}-+"),
        format!("|{:width$}|", ""),
        format!("+{:-<width$}+", ""),
    ]
}

/// Branches as they hang on one node: one straight below it, more on a bar.
fn side_by_side(branches: &[Vec<String>]) -> Vec<String> {
    if let [] | [_] = branches {
        return branches.concat();
    }
    let mut rows = vec!["|".to_string(), String::new()];
    let height = branches.iter().map(Vec::len).max().unwrap_or(0);
    rows.resize(2 + height, String::new());
    let mut column = 0;
    for branch in branches {
        rows[1] = format!("{:-<column$}+", rows[1]);
        for (row, text) in rows[2..].iter_mut().zip(branch) {
            *row = format!("{row:column$}{text}");
        }
        column += width(branch) + MARGIN;
    }
    rows
}

/// The length of the longest row.
pub fn width(rows: &[String]) -> usize {
    rows.iter().map(String::len).max().unwrap_or(0)
}
