//! What is said of a file that was rescued: which places are not kept, and why.

use std::{
    collections::BTreeMap,
    fmt,
    io::{self, Write},
    path::Path,
};

use lexicon::{CdError, PlaceMark, Record, Rescue};

use super::{find::unexpected, places};
use crate::{
    output::{Failure, Output},
    spelling::line_of,
};

/// A file that was rescued.
pub struct Rescued<'a> {
    pub old: &'a Path,
    pub new: &'a Path,
    /// The bytes of the old file's places.
    pub laid_out: &'a [[u8; Record::LEN]],
    pub rescue: &'a Rescue,
}

impl Rescued<'_> {
    pub fn tell(&self, out: &mut Output) -> Result<(), Failure> {
        let old = self.old.display();
        let left = self.not_kept()?;
        if !left.is_empty() {
            writeln!(out, "{old}: {} not kept:", places(left.len()))?;
            write_rows(&left, out)?;
            self.explain_refusals(&left, out)?;
            self.advise(&left, out)?;
        }
        match self.rescue.tail {
            0 => (),
            1 => writeln!(out, "{old}: the last byte is no whole place, and not kept")?,
            tail => writeln!(
                out,
                "{old}: the last {tail} bytes are no whole place, and not kept"
            )?,
        }
        let [kept, all] = [self.rescue.shelf.places(), self.rescue.marks.len()];
        writeln!(
            out,
            "{}: {kept} of {} kept",
            self.new.display(),
            places(all)
        )?;
        Ok(())
    }

    fn not_kept(&self) -> Result<Vec<NotKept>, Failure> {
        let mut kept = Vec::new();
        let mut left = Vec::new();
        for (place, mark) in self.rescue.marks.iter().enumerate() {
            let why = match *mark {
                PlaceMark::Kept => {
                    kept.push(place);
                    continue;
                }
                PlaceMark::Refused(refusal) => Why::Refused(refusal),
                PlaceMark::OutOfOrder => self.out_of_order(place, &kept)?,
            };
            left.push(NotKept { place, why });
        }
        Ok(left)
    }

    /// Why a place is not kept whose record is not greater than that of the place kept last. An equal
    /// one can only be at the places kept before it, which have these numbers.
    fn out_of_order(&self, place: usize, kept: &[usize]) -> Result<Why, Failure> {
        let found = self.rescue.shelf.find(&self.record(place));
        Ok(match found.map_err(unexpected)? {
            Ok(at) => Why::Equal { to: kept[at] },
            Err(_) => Why::Less {
                than: kept[kept.len() - 1],
                text: self.text(place),
            },
        })
    }

    /// The record at a place whose mark says that it can be read.
    fn record(&self, place: usize) -> Record {
        Record::from_trusted_bytes(&self.laid_out[place])
    }

    fn text(&self, place: usize) -> String {
        line_of(&self.record(place))
    }

    /// What each refusal in the rows means, and how the texts are found that are to be filed again.
    fn explain_refusals(&self, left: &[NotKept], out: &mut Output) -> io::Result<()> {
        let refusals = left.iter().filter_map(|left| match left.why {
            Why::Refused(refusal) => Some((refusal.number(), refusal)),
            _ => None,
        });
        let refusals: BTreeMap<u32, CdError> = refusals.collect();
        for (number, refusal) in &refusals {
            writeln!(out, "refusal {number}: {refusal}")?;
        }
        if !refusals.is_empty() {
            let new = self.new.display();
            writeln!(
                out,
                "can't be read: `lexicon shelf find {new} TEXT...` tells which texts are missing"
            )?;
        }
        Ok(())
    }

    /// How what is out of order is added again, and what to look at first: a damaged record that can
    /// still be read may be too great, so that good ones behind it are out of order.
    fn advise(&self, left: &[NotKept], out: &mut Output) -> io::Result<()> {
        let greater = left.iter().filter_map(|left| match left.why {
            Why::Less { than, .. } => Some(than),
            _ => None,
        });
        let mut greater: Vec<usize> = greater.collect();
        greater.dedup();
        if greater.is_empty() {
            return Ok(());
        }
        let [old, new] = [self.old, self.new].map(Path::display);
        writeln!(
            out,
            "out of order: still in {old}; `lexicon shelf add {new} TEXT...` adds those that are right"
        )?;
        writeln!(out, "kept before them, and perhaps damaged and too great:")?;
        for place in greater {
            writeln!(out, "  place {place}: {}", self.text(place))?;
        }
        Ok(())
    }
}

/// A place that is not kept.
struct NotKept {
    place: usize,
    why: Why,
}

enum Why {
    /// It can't be read.
    Refused(CdError),
    /// It is out of order, and has the record of a place that is kept.
    Equal { to: usize },
    /// It is out of order, and its record, which has this text, is not kept: it is less than the
    /// place kept last before it.
    Less { than: usize, text: String },
}

impl fmt::Display for Why {
    fn fmt(&self, f: &mut fmt::Formatter<'_>) -> fmt::Result {
        match self {
            Self::Refused(refusal) => write!(f, "can't be read, refusal {}", refusal.number()),
            Self::Equal { to } => write!(f, "out of order, equal to place {to}"),
            Self::Less { than, .. } => write!(f, "out of order, less than place {than}"),
        }
    }
}

/// A line on each place. The texts stand behind tabs, so that they can be cut out.
fn write_rows(left: &[NotKept], out: &mut Output) -> io::Result<()> {
    let widths = left.iter().map(|left| {
        let NotKept { place, why } = left;
        [place.to_string().len(), why.to_string().len()]
    });
    let [place_width, why_width] = widths.fold([0, 0], |[a, b], [c, d]| [a.max(c), b.max(d)]);
    for NotKept { place, why } in left {
        write!(out, "  {place:place_width$}  ")?;
        match why {
            Why::Less { text, .. } => writeln!(out, "{:why_width$}\t{text}", why.to_string())?,
            _ => writeln!(out, "{why}")?,
        }
    }
    Ok(())
}
