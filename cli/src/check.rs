//! `lexicon check`: the headwords that are refused, and those that are one figure.

use std::{
    fs::File,
    io::{self, Read},
    mem,
    path::{Path, PathBuf},
};

use clap::ArgMatches;

use crate::{
    block::{Block, Place, Typed},
    figures::{Figures, Headword},
    lines::Lines,
    output::{Failure, Outcome, Output, Status},
    progress::Progress,
    report::{Report, Totals},
    texts,
    threads::{self, Threads},
};

pub fn run(arguments: &ArgMatches, out: &mut Output) -> Outcome {
    let files: Vec<&PathBuf> = arguments.get_many("FILE").unwrap_or_default().collect();
    let format: Option<&String> = arguments.get_one("format");
    let infinite = texts::infinite(arguments);
    let mut check = Check {
        notes: arguments.get_flag("notes"),
        progress: Progress::new(files.iter().map(|file| size(file)).sum()),
        bytes: 0,
        reading: Block::default(),
        threads: Threads::new(infinite),
        findings: Findings {
            out,
            report: Report::new(&files, format.is_some_and(|format| format == "json")),
            figures: Figures::new(infinite),
            totals: Totals::default(),
        },
    };
    let mut failed = false;
    for (i, file) in (0..).zip(files) {
        // A file that can't be read is told, and the others are checked all the same.
        failed |= match check.file(i, file) {
            Err(failure @ Failure::Output(_)) => return Err(failure),
            Err(failure) => {
                check.progress.aside(|| failure.say());
                true
            }
            Ok(()) => false,
        };
    }
    let status = check.end()?;
    Ok(if failed { Status::Failed } else { status })
}

/// How many bytes a file has, if it is a plain one.
fn size(file: &Path) -> Option<u64> {
    let of = file.metadata().ok()?;
    of.is_file().then_some(of.len())
}

struct Check<'a> {
    notes: bool,
    progress: Progress,
    /// How many bytes the files before this one have.
    bytes: u64,
    reading: Block,
    threads: Threads,
    findings: Findings<'a>,
}

impl Check<'_> {
    fn file(&mut self, i: u32, path: &Path) -> Result<(), Failure> {
        if path == Path::new("-") {
            return self.lines(i, path, Lines::new(io::stdin().lock()));
        }
        let file = File::open(path).map_err(|e| Failure::of_file(path, e))?;
        self.lines(i, path, Lines::new(file))
    }

    fn lines(
        &mut self,
        file: u32,
        path: &Path,
        mut lines: Lines<impl Read>,
    ) -> Result<(), Failure> {
        for line in 1.. {
            let Some(read) = lines.next().map_err(|e| Failure::of_file(path, e))? else {
                break;
            };
            self.findings.totals.cr_lf += u64::from(read.ends_in_cr_lf);
            let (text, note) = parts(read.without_cr(), self.notes);
            let place = Place { file, line };
            self.reading.push(&Typed { place, text, note });
            if self.reading.is_full() {
                self.progress.show(self.bytes + lines.bytes);
                self.give()?;
            }
        }
        self.bytes += lines.bytes;
        Ok(())
    }

    /// Has the lines filed that were read, and meanwhile takes what others came to.
    fn give(&mut self) -> io::Result<()> {
        let mut free = Block::default();
        if self.threads.are_busy() {
            free = self.take()?.unwrap_or_default();
        }
        self.threads.give(mem::replace(&mut self.reading, free));
        Ok(())
    }

    /// Takes what the oldest block came to, which is free then.
    fn take(&mut self) -> io::Result<Option<Block>> {
        let Some(mut block) = self.threads.next() else {
            return Ok(None);
        };
        self.findings.take(&block, &self.progress)?;
        block.clear();
        Ok(Some(block))
    }

    fn end(mut self) -> Outcome {
        self.give()?;
        while self.take()?.is_some() {}
        self.progress.end();
        self.findings.end()
    }
}

struct Findings<'a> {
    out: &'a mut Output,
    report: Report,
    figures: Figures,
    totals: Totals,
}

impl Findings<'_> {
    fn take(&mut self, block: &Block, progress: &Progress) -> io::Result<()> {
        self.figures.read_ahead(block);
        for (typed, answer) in block.answers() {
            self.totals.lines += 1;
            match answer {
                Ok(filed) => self.figures.take(&typed, filed),
                Err(refusal) => {
                    self.totals.refused += 1;
                    progress.aside(|| self.report.refused(self.out, &typed, refusal))?;
                }
            }
        }
        Ok(())
    }

    fn end(mut self) -> Outcome {
        self.figures.sort();
        let groups: Vec<_> = self.figures.groups().collect();
        self.totals.figures = self.figures.count();
        self.totals.repeated = groups.len();
        let tell = |group: &[&Headword], told: &mut Vec<u8>| {
            self.report.one_figure(told, &self.figures, group)
        };
        threads::tell(&groups, tell, self.out)?;
        self.report.totals(self.out, &self.totals)?;
        let fine = self.totals.refused == 0 && self.totals.repeated == 0;
        Ok(if fine { Status::Fine } else { Status::Wrong })
    }
}

/// A line's text and its note. Only where notes are wished for does a tab end the text: else it is
/// a space of the notation.
fn parts(line: &[u8], notes: bool) -> (&[u8], &[u8]) {
    let tab = line.iter().position(|&byte| notes && byte == b'\t');
    tab.map_or((line, &[]), |tab| (&line[..tab], &line[tab + 1..]))
}
