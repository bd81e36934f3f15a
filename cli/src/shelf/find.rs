//! `lexicon shelf find`, and the texts of a command line.

use std::{io::Write, path::Path};

use clap::ArgMatches;
use lexicon::Record;

use super::{load, say};
use crate::{
    output::{Failure, Outcome, Output, Status},
    refusals::{complain, shown},
    texts,
};

pub fn run(path: &Path, arguments: &ArgMatches, out: &mut Output) -> Outcome {
    let shelf = match load(path)? {
        Ok(shelf) => shelf,
        Err(damage) => return Ok(say(&damage)),
    };
    let mut status = Status::Fine;
    for asked in asked(arguments) {
        let Some(record) = asked.record else {
            status = Status::Wrong;
            continue;
        };
        let found = shelf.find(&record).map_err(unexpected)?;
        match found {
            Ok(place) => writeln!(out, "{}: place {place}", asked.text)?,
            Err(place) => {
                status = Status::Wrong;
                writeln!(out, "{}: not there, would be place {place}", asked.text)?;
            }
        }
    }
    Ok(status)
}

/// A text of the command line.
pub struct Asked {
    /// The text, as it is shown.
    pub text: String,
    /// Its figure's record, or none if it is refused, which was said.
    pub record: Option<Record>,
}

/// The texts of a command line, read one after another.
pub fn asked(arguments: &ArgMatches) -> impl Iterator<Item = Asked> + '_ {
    let infinite = texts::infinite(arguments);
    let texts = texts::all_of(arguments, "TEXT").zip(1..);
    texts.map(move |(text, number)| {
        let read = Record::of_text(text, infinite).map(|(record, _)| record);
        if let Err(refusal) = &read {
            complain(&format!("TEXT {number}"), text, refusal);
        }
        Asked {
            text: shown(text).into_owned(),
            record: read.ok(),
        }
    })
}

/// A refusal of a record that the library itself wrote.
pub fn unexpected(refusal: lexicon::CdError) -> Failure {
    Failure::Said(format!("the library refuses its own record: {refusal}"))
}
