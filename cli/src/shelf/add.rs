//! `lexicon shelf add`.

use std::{collections::HashMap, fmt::Write as _, io::Write, path::Path};

use clap::ArgMatches;
use lexicon::{CdError, Record, Shelf};

use super::{
    checked,
    find::{asked, unexpected},
    replace::{replace, Plan},
    tell_size,
};
use crate::{
    output::{Failure, Outcome, Output, Status},
    refusals::advice,
    spelling::line_of,
};

pub fn run(path: &Path, arguments: &ArgMatches, out: &mut Output) -> Outcome {
    let asked: Vec<_> = asked(arguments).collect();
    let all = asked
        .iter()
        .map(|asked| Some((&*asked.text, asked.record?)));
    let added: Option<Vec<_>> = all.collect();
    let Some(added) = added else {
        return nothing(path, out); // and each refusal was said
    };
    let twice = given_twice(&added);
    if !twice.is_empty() {
        write!(out, "{twice}")?;
        return nothing(path, out);
    }
    let plan = replace(path, |bytes| match checked(path, bytes) {
        Ok(shelf) => grown(&shelf, &added),
        Err(damage) => Ok(Err(damage)),
    })?;
    match plan {
        Ok(shelf) => told(path, &shelf, &added, out),
        Err(said) => {
            write!(out, "{said}")?;
            nothing(path, out)
        }
    }
}

fn nothing(path: &Path, out: &mut Output) -> Outcome {
    writeln!(out, "{}: nothing was added", path.display())?;
    Ok(Status::Wrong)
}

/// A line on each text whose figure an earlier one has.
fn given_twice(added: &[(&str, Record)]) -> String {
    let mut said = String::new();
    let mut first = HashMap::new();
    for ((text, record), number) in added.iter().zip(1..) {
        let (earlier, its_number) = *first.entry(record).or_insert((text, number));
        if its_number < number {
            let _ = writeln!(
                said,
                "TEXT {number}: {text} is the figure of TEXT {its_number}: {earlier}"
            );
        }
    }
    said
}

/// The shelf with the new records, or what is said of those that are there.
fn grown(shelf: &Shelf, added: &[(&str, Record)]) -> Result<Plan, Failure> {
    let mut said = String::new();
    let mut free = Vec::new();
    for (text, record) in added {
        match shelf.find(record).map_err(unexpected)? {
            Ok(place) => said += &there(text, place, record),
            Err(place) => free.push((place, record)),
        }
    }
    if !said.is_empty() {
        return Ok(Err(said));
    }
    let new = Shelf::new(merged(shelf, free)).map_err(unexpected)?;
    Ok(Ok(new))
}

fn there(text: &str, place: usize, record: &Record) -> String {
    let refusal = CdError::OnShelf { place };
    format!(
        "{text}: already there, place {place}: {}\n  refusal {}. {}\n",
        line_of(record),
        refusal.number(),
        advice(&refusal)
    )
}

/// The bytes of a shelf with records put in at their places, which those of the old file: one pass,
/// where as many calls of `Shelf::add` would check the whole file each.
fn merged(shelf: &Shelf, mut free: Vec<(usize, &Record)>) -> Vec<u8> {
    free.sort_unstable();
    let old = shelf.as_bytes();
    let mut bytes = Vec::with_capacity(old.len() + free.len() * Record::LEN);
    let mut from = 0;
    for (place, record) in free {
        let to = place * Record::LEN;
        bytes.extend_from_slice(&old[from..to]);
        bytes.extend_from_slice(record.as_bytes());
        from = to;
    }
    bytes.extend_from_slice(&old[from..]);
    bytes
}

/// Tells where the texts are now.
fn told(path: &Path, shelf: &Shelf, added: &[(&str, Record)], out: &mut Output) -> Outcome {
    for (text, record) in added {
        match shelf.find(record).map_err(unexpected)? {
            Ok(place) => writeln!(out, "{text}: added, place {place}")?,
            Err(_) => return Err(unexpected(CdError::NoDiagram)),
        }
    }
    tell_size(path, shelf, out)?;
    Ok(Status::Fine)
}
