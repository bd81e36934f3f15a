//! What `lexicon check` finds, as text or as JSON.

use std::{
    hint,
    io::{self, Write},
    path::PathBuf,
};

use lexicon::CdError;
use serde_json::{json, Value};

use crate::{
    block::{Place, Typed},
    figures::{Figures, Headword},
    names::letter,
    refusals::{self, shown},
};

/// How many lines there were, how many of them were refused and how many end in CR LF; how many
/// figures there are, and how many of these stand more than once.
#[derive(Default)]
pub struct Totals {
    pub lines: u64,
    pub refused: u64,
    pub cr_lf: u64,
    pub figures: usize,
    pub repeated: usize,
}

/// How findings are told.
pub struct Report {
    /// The names of the files.
    files: Vec<String>,
    json: bool,
}

impl Report {
    pub fn new(files: &[&PathBuf], json: bool) -> Self {
        let name = |file: &&PathBuf| shown(file.as_os_str().as_encoded_bytes()).into_owned();
        let files = files.iter().map(name).collect();
        Self { files, json }
    }

    /// A headword that is refused.
    pub fn refused(&self, out: &mut impl Write, typed: &Typed, e: &CdError) -> io::Result<()> {
        if !self.json {
            let place = format!("{}:{}:", self.file(typed.place), typed.place.line);
            return refusals::report(out, &place, typed.text, typed.note, e);
        }
        let mut finding = self.headword(typed);
        finding["finding"] = "refused".into();
        finding["column"] = refusals::column(e).into();
        finding["refusal"] = e.number().into();
        finding["fields"] = e.fields().into();
        finding["message"] = refusals::what(e).into();
        finding["advice"] = refusals::advice(e).into();
        writeln!(out, "{finding}")
    }

    /// Headwords that are one figure, each with its nodes in the order of the first one's.
    pub fn one_figure(
        &self,
        out: &mut Vec<u8>,
        figures: &Figures,
        group: &[&Headword],
    ) -> io::Result<()> {
        let places = group[0].numbering.places();
        let headwords = group.iter().map(|headword| {
            let nodes = headword.numbering.nodes(&places);
            (figures.typed(headword), nodes)
        });
        if !self.json {
            return self.rows(out, headwords);
        }
        let headwords = headwords.map(|(typed, nodes)| {
            let mut finding = self.headword(&typed);
            finding["nodes"] = nodes.collect();
            finding
        });
        let headwords: Vec<Value> = headwords.collect();
        let finding = json!({ "finding": "one figure", "headwords": headwords });
        writeln!(out, "{finding}")
    }

    fn rows<'a, N: Iterator<Item = usize>>(
        &self,
        out: &mut Vec<u8>,
        headwords: impl ExactSizeIterator<Item = (Typed<'a>, N)> + Clone,
    ) -> io::Result<()> {
        let lines = headwords.len();
        writeln!(
            out,
            "{lines} lines are one figure, their nodes in corresponding order:"
        )?;
        let place = headwords.clone().map(|(typed, _)| self.width(typed.place));
        let text = headwords.clone().map(|(typed, _)| typed.text.len());
        // All texts are read once, so that they come into the cache together.
        let first = headwords
            .clone()
            .filter_map(|(typed, _)| typed.text.first());
        hint::black_box(first.fold(0, |all, byte| all ^ byte));
        let widths = (place.max().unwrap_or(0), text.max().unwrap_or(0));
        for (typed, nodes) in headwords {
            self.row(out, widths, &typed, nodes)?;
        }
        Ok(())
    }

    /// There may be many rows, so each is put together by hand.
    fn row(
        &self,
        out: &mut Vec<u8>,
        (place, text): (usize, usize),
        typed: &Typed,
        nodes: impl Iterator<Item = usize>,
    ) -> io::Result<()> {
        out.extend_from_slice(b"  ");
        out.extend_from_slice(self.file(typed.place).as_bytes());
        write!(out, ":{}:", typed.place.line)?;
        out.resize(out.len() + place - self.width(typed.place) + 1, b' ');
        out.extend_from_slice(shown(typed.text).as_bytes());
        out.resize(out.len() + text - typed.text.len() + 1, b' ');
        for node in nodes {
            out.push(b' ');
            out.push(letter(node));
        }
        if !typed.note.is_empty() {
            write!(out, "  {}", shown(typed.note))?;
        }
        out.truncate(out.trim_ascii_end().len());
        out.push(b'\n');
        Ok(())
    }

    /// How many characters a file's name and a line's digits have.
    fn width(&self, place: Place) -> usize {
        let digits = place.line.checked_ilog10().unwrap_or(0) as usize + 1;
        self.file(place).chars().count() + digits
    }

    /// The last line.
    pub fn totals(&self, out: &mut impl Write, totals: &Totals) -> io::Result<()> {
        let accepted = totals.lines - totals.refused;
        if self.json {
            let finding = json!({
                "finding": "totals",
                "lines": totals.lines,
                "accepted": accepted,
                "refused": totals.refused,
                "figures": totals.figures,
                "repeated": totals.repeated,
                "cr lf": totals.cr_lf,
            });
            return writeln!(out, "{finding}");
        }
        let s = |number: u64| if number == 1 { "" } else { "s" };
        let (lines, refused, cr_lf) = (totals.lines, totals.refused, totals.cr_lf);
        let (figures, repeated) = (totals.figures as u64, totals.repeated);
        write!(
            out,
            "{lines} line{}: {accepted} accepted, {refused} refused; ",
            s(lines)
        )?;
        write!(
            out,
            "{figures} figure{}, {repeated} of them more than once",
            s(figures)
        )?;
        if cr_lf > 0 {
            write!(out, "; CR LF taken as the end of {cr_lf} line{}", s(cr_lf))?;
        }
        writeln!(out)
    }

    fn headword(&self, typed: &Typed) -> Value {
        json!({
            "file": self.file(typed.place),
            "line": typed.place.line,
            "text": String::from_utf8_lossy(typed.text),
            "note": String::from_utf8_lossy(typed.note),
        })
    }

    fn file(&self, place: Place) -> &str {
        &self.files[place.file as usize]
    }
}
