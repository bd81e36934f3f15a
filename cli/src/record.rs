//! `lexicon record`: texts to records, line by line.

use std::{
    io::{self, Write},
    path::Path,
};

use clap::ArgMatches;
use lexicon::{CdResult, Record};

use crate::{
    lines::Lines,
    output::{Failure, Outcome, Output, Status},
    refusals, texts,
};

pub fn run(arguments: &ArgMatches, out: &mut Output) -> Outcome {
    let wish = texts::infinite(arguments);
    let raw = arguments.get_flag("raw");
    let mut status = Status::Fine;
    let mut answer = |place: &str, text: &[u8]| {
        let filed = Record::of_text(text, wish);
        if filed.is_err() {
            status = Status::Wrong;
        }
        match (raw, filed) {
            (false, filed) => write_line(out, &filed),
            (true, Ok((record, _))) => out.write_all(record.as_ref()),
            (true, Err(refusal)) => {
                refusals::complain(place, text, &refusal);
                Ok(())
            }
        }
    };
    match texts::all_of(arguments, "TEXT").next() {
        Some(text) if text != b"-" => answer("TEXT", text)?,
        _ => {
            let mut lines = Lines::new(io::stdin().lock());
            let failed = |e| Failure::of_file(Path::new("-"), e);
            for line in 1_u64.. {
                let Some(read) = lines.next().map_err(failed)? else {
                    break;
                };
                answer(&format!("-:{line}"), read.bytes)?;
            }
        }
    }
    Ok(status)
}

/// `ok`, the record and the numbering, or `no`, the refusal's number and its fields.
fn write_line(out: &mut Output, filed: &CdResult<(Record, Vec<usize>)>) -> io::Result<()> {
    match filed {
        Ok((record, numbering)) => {
            write!(out, "ok {record} ")?;
            numbering
                .iter()
                .try_for_each(|node| write!(out, "{node}"))?;
        }
        Err(refusal) => {
            write!(out, "no {}", refusal.number())?;
            refusal
                .fields()
                .iter()
                .try_for_each(|field| write!(out, " {field}"))?;
        }
    }
    writeln!(out)
}
