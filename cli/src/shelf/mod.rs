//! `lexicon shelf`: the file of all records. What stands in it, and where, the library says.

mod add;
mod damage;
mod find;
mod folder;
mod fresh;
mod lock;
mod make;
mod new;
mod replace;
mod rescue;
mod rescued;
mod system;

use std::{
    fs::File,
    io::{self, Read, Write},
    os::unix::fs::FileTypeExt,
    path::{Path, PathBuf},
};

use clap::ArgMatches;
use lexicon::Shelf;

use crate::{
    output::{Failure, Outcome, Output, Status},
    spelling::line_of,
};

pub fn run(arguments: &ArgMatches, out: &mut Output) -> Outcome {
    let (name, arguments) = arguments.subcommand().unwrap_or(("", arguments));
    let path = |name| arguments.try_get_one::<PathBuf>(name).ok().flatten();
    if let ("rescue", Some(old), Some(new)) = (name, path("OLD"), path("NEW")) {
        return rescue::run(old, new, out);
    }
    match (name, path("FILE")) {
        ("check", Some(path)) => check(path, out),
        ("find", Some(path)) => find::run(path, arguments, out),
        ("add", Some(path)) => add::run(path, arguments, out),
        ("list", Some(path)) => list(path, out),
        ("make", Some(path)) => make::run(path, arguments, out),
        _ => Err(Failure::Said("no such subcommand of shelf".into())),
    }
}

fn check(path: &Path, out: &mut Output) -> Outcome {
    match load(path)? {
        Ok(shelf) => {
            tell_size(path, &shelf, out)?;
            Ok(Status::Fine)
        }
        Err(damage) => {
            write!(out, "{damage}")?;
            Ok(Status::Wrong)
        }
    }
}

fn list(path: &Path, out: &mut Output) -> Outcome {
    let shelf = match load(path)? {
        Ok(shelf) => shelf,
        Err(damage) => return Ok(say(&damage)),
    };
    for (place, record) in shelf.records().enumerate() {
        writeln!(out, "{place}\t{}", line_of(&record))?;
    }
    Ok(Status::Fine)
}

/// Reads a shelf file whole, without a lock: a replacement is one rename, so that this is the old
/// shelf or the new one. If the library refuses it, what is said of that is given instead.
fn load(path: &Path) -> Result<Result<Shelf, String>, Failure> {
    let bytes = read(path).map_err(|e| Failure::of_file(path, e))?;
    Ok(checked(path, &bytes))
}

/// The shelf of a file's bytes, or what is said of its refusal.
fn checked(path: &Path, bytes: &[u8]) -> Result<Shelf, String> {
    Shelf::new(bytes).map_err(|refusal| damage::told(path, bytes, &refusal))
}

fn read(path: &Path) -> io::Result<Vec<u8>> {
    let mut file = File::open(path)?;
    let kind = file.metadata()?.file_type();
    if kind.is_char_device() || kind.is_block_device() {
        return Err(io::Error::other("this is a device")); // and might have no end
    }
    let mut bytes = Vec::new();
    file.read_to_end(&mut bytes)?;
    Ok(bytes)
}

fn tell_size(path: &Path, shelf: &Shelf, out: &mut Output) -> io::Result<()> {
    writeln!(out, "{}: {}", path.display(), places(shelf.places()))
}

/// A number of places, in words.
fn places(count: usize) -> String {
    let noun = if count == 1 { "place" } else { "places" };
    format!("{count} {noun}")
}

/// Says a finding on standard error. Where that fails, nothing is left to say it on.
fn say(finding: &str) -> Status {
    let _ = io::stderr().write_all(finding.as_bytes());
    Status::Wrong
}
