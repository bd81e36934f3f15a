//! `lexicon draw`: a figure's diagram as an SVG.
//!
//! All but loops is drawn from the figure's record, which is the same for all of its spellings.

mod cycle;
mod frames;
mod general;
mod graph;
mod labels;
mod layout;
mod loops;
mod planar;
mod plane;
mod refine;
mod sizes;
mod svg;
mod symmetry;
mod tree;
mod tutte;
mod upright;

use std::{
    ffi::OsString,
    fs, io,
    io::Write,
    path::{Path, PathBuf},
};

use clap::ArgMatches;
use lexicon::Cd;

use crate::{
    output::{Failure, Outcome, Output, Status},
    texts,
};

/// Draws the text's diagram into the file.
pub fn run(arguments: &ArgMatches, out: &mut Output) -> Outcome {
    let Some(cd) = texts::accepted(arguments, "TEXT") else {
        return Ok(Status::Wrong);
    };
    let svg = drawn(&cd);
    match arguments.get_one::<PathBuf>("output") {
        Some(path) if path.as_os_str() != "-" => {
            replace(path, svg.as_bytes()).map_err(|e| Failure::of_file(path, e))?;
        }
        _ => out.write_all(svg.as_bytes())?,
    }
    Ok(Status::Fine)
}

/// The SVG of a text's figure, with the loops that the text has.
fn drawn(cd: &Cd) -> String {
    let (record, numbering) = cd.record_and_numbering();
    let diagram = record.diagram();
    let picture = labels::picture(&diagram, &layout::layout(&diagram));
    let loops = loops::draw(cd, &numbering, &picture);
    svg::svg(&picture, &loops)
}

/// Writes a file beside the one that is meant and gives it that name, so that a failure leaves no
/// half picture. What is no plain file, such as a pipe, is written as it is.
fn replace(path: &Path, bytes: &[u8]) -> io::Result<()> {
    if fs::metadata(path).is_ok_and(|there| !there.is_file()) {
        return fs::write(path, bytes);
    }
    let mut beside = OsString::from(path);
    beside.push(format!(".{}.new", std::process::id()));
    let written = fs::write(&beside, bytes).and_then(|()| fs::rename(&beside, path));
    if written.is_err() {
        let _ = fs::remove_file(&beside);
    }
    written
}
