//! `lexicon shelf make`.

use std::{
    collections::{btree_map::Entry, BTreeMap},
    io::{self, Write},
    path::Path,
};

use clap::ArgMatches;
use lexicon::{Record, Shelf};

use super::{new::New, tell_size};
use crate::{
    lines::Lines,
    output::{Failure, Outcome, Output, Status},
    refusals::{report, shown},
    texts,
};

pub fn run(path: &Path, arguments: &ArgMatches, out: &mut Output) -> Outcome {
    let new = New::of(path, "`lexicon shelf add` adds to a shelf")?;
    new.clear()?; // before a long list is read
    let list = List::read(texts::infinite(arguments), out)?;
    if list.refused > 0 {
        writeln!(out, "{}: not made", path.display())?;
        return Ok(Status::Wrong);
    }
    let shelf = list.shelf()?;
    new.write(&shelf)?;
    tell_size(path, &shelf, out)?;
    Ok(match list.twice {
        0 => Status::Fine,
        _ => Status::Wrong,
    })
}

/// The figures of a list.
#[derive(Default)]
struct List {
    /// The line and the text that each figure stands on first, by rising record.
    figures: BTreeMap<Record, (u64, String)>,
    refused: u64,
    twice: u64,
}

impl List {
    /// Reads standard input, and reports what is refused or stands twice.
    fn read(infinite: bool, out: &mut Output) -> Result<Self, Failure> {
        let failed = |e| Failure::Said(format!("standard input: {e}"));
        let mut list = Self::default();
        let mut lines = Lines::new(io::stdin().lock());
        let mut number = 0;
        while let Some(line) = lines.next().map_err(failed)? {
            number += 1;
            list.take(number, line.without_cr(), infinite, out)?;
        }
        Ok(list)
    }

    fn take(
        &mut self,
        number: u64,
        text: &[u8],
        infinite: bool,
        out: &mut Output,
    ) -> io::Result<()> {
        let record = match Record::of_text(text, infinite) {
            Ok((record, _)) => record,
            Err(refusal) => {
                self.refused += 1;
                return report(out, &format!("-:{number}:"), text, &[], &refusal);
            }
        };
        let text = shown(text);
        match self.figures.entry(record) {
            Entry::Vacant(entry) => {
                entry.insert((number, text.into_owned()));
            }
            Entry::Occupied(entry) => {
                self.twice += 1;
                let (first, its_text) = entry.get();
                writeln!(
                    out,
                    "-:{number}: {text} is the figure of -:{first}: {its_text}"
                )?;
            }
        }
        Ok(())
    }

    /// The records one after another, checked by the library.
    fn shelf(&self) -> Result<Shelf, Failure> {
        let bytes: Vec<u8> = self
            .figures
            .keys()
            .flat_map(|record| *record.as_bytes())
            .collect();
        let refused = |e| Failure::Said(format!("the library refuses the sorted records: {e}"));
        Shelf::new(bytes).map_err(refused)
    }
}
