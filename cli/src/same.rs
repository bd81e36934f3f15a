//! `lexicon same`: whether two texts are one figure, and which node is which.

use std::io::Write;

use crate::{
    names::names,
    output::{Outcome, Output, Status},
    refusals, texts,
};
use clap::ArgMatches;

pub fn run(arguments: &ArgMatches, out: &mut Output) -> Outcome {
    let [a, b] = ["A", "B"].map(|name| texts::accepted(arguments, name));
    let (Some(a), Some(b)) = (a, b) else {
        return Ok(Status::Failed);
    };
    let Some(nodes) = a.corresponding_nodes(&b) else {
        writeln!(out, "two figures")?;
        return Ok(Status::Wrong);
    };
    let width = a.text().len().max(b.text().len());
    writeln!(out, "one figure, its nodes in corresponding order:")?;
    for (cd, nodes) in [(&a, (0..nodes.len()).collect()), (&b, nodes)] {
        let text = refusals::shown(cd.text().as_bytes());
        let row = format!("  {text:width$}  {}", names(nodes));
        writeln!(out, "{}", row.trim_end())?;
    }
    Ok(Status::Fine)
}
