//! What the tests of `lexicon shelf` share.
#![allow(dead_code, reason = "each test program uses a part of it")]

pub mod access;
pub mod faults;

use std::{
    ffi::OsStr,
    process::{Command, Stdio},
};

use lexicon::{Cd, Record, Shelf};

use crate::common::{Folder, Run, LEXICON};

impl Folder {
    /// `lexicon shelf` in this folder.
    pub fn command<S: AsRef<OsStr>>(&self, arguments: impl IntoIterator<Item = S>) -> Command {
        let mut command = Command::new(LEXICON);
        command.current_dir(&self.0).stdin(Stdio::null());
        command.arg("shelf").args(arguments);
        command
    }

    /// Runs `lexicon shelf` in this folder.
    pub fn shelf<const N: usize>(&self, arguments: [&str; N]) -> Run {
        Run::of(&mut self.command(arguments))
    }

    /// Runs `lexicon shelf make` on this list.
    pub fn make(&self, name: &str, list: &[u8]) -> Run {
        Run::on(&mut self.command(["make", name]), list)
    }
}

pub fn record(text: &str) -> Record {
    Cd::parse_with_infinite(text).unwrap().record()
}

/// The shelf file of these texts, by the crate.
pub fn shelf_of<'a>(texts: impl IntoIterator<Item = &'a str>) -> Vec<u8> {
    let mut records: Vec<_> = texts.into_iter().map(record).collect();
    records.sort();
    records.dedup();
    let bytes: Vec<u8> = records
        .iter()
        .flat_map(|record| *record.as_bytes())
        .collect();
    Shelf::new(bytes).unwrap().into_bytes()
}

/// Bytes of `x4o`, numbered as it was typed and not as it is filed.
pub fn numbered_as_typed() -> [u8; Record::LEN] {
    let mut bytes = [0; Record::LEN];
    bytes[..4].copy_from_slice(&[2, 2, 0x3f, 0xf0]);
    (bytes[10], bytes[85], bytes[89]) = (1, 4, 1);
    bytes
}

/// Numbers by chance, the same in each run.
pub struct Chance(pub u64);

impl Chance {
    pub fn below(&mut self, bound: usize) -> usize {
        self.0 ^= self.0 << 13;
        self.0 ^= self.0 >> 7;
        self.0 ^= self.0 << 17;
        usize::try_from(self.0 >> 11).unwrap() % bound
    }

    pub fn of<'a>(&mut self, choices: &[&'a str]) -> &'a str {
        choices[self.below(choices.len())]
    }
}
