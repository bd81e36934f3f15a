//! The figures that were met, each with the headwords that draw it.

use std::{hint, iter};

use lexicon::Record;

use crate::block::{small, Block, Filed, Numbering, Place, Typed};

/// A headword that was accepted.
pub struct Headword {
    place: Place,
    pub numbering: Numbering,
    /// Where its text and its note begin among all that was typed.
    from: usize,
    note: u16,
    text: u8,
}

struct Figure {
    first: Headword,
    hash: u64,
    /// Its record among those that are kept.
    record: Option<u32>,
}

/// All figures, in a table by the hashes of their records. A hash only finds those that may be equal:
/// whole records are compared. A record is kept when its figure may have come a second time. Most
/// figures come once, and all their records would need more time and memory than filing the first
/// headword again.
pub struct Figures {
    infinite: bool,
    all: Vec<Figure>,
    records: Vec<Record>,
    /// All headwords that are not their figure's first.
    repeats: Vec<(u32, Headword)>,
    /// Texts and notes, one after another.
    typed: Vec<u8>,
    /// Each figure stands in the slot of its hash or in the first free one behind it. There are a
    /// power of two of slots, and at least half of them are free.
    slots: Vec<Slot>,
}

/// The upper half of a figure's hash, and the figure's number from 1; or 0, which is free.
#[derive(Clone, Copy, Default)]
struct Slot {
    hash: u32,
    number: u32,
}

impl Slot {
    /// The figure, if it may be one of this hash.
    fn candidate(self, hash: u64) -> Option<u32> {
        let figure = self.number.checked_sub(1)?;
        (self.hash == upper(hash)).then_some(figure)
    }
}

fn upper(hash: u64) -> u32 {
    small(hash >> 32)
}

impl Figures {
    pub fn new(infinite: bool) -> Self {
        Self {
            infinite,
            all: vec![],
            records: vec![],
            repeats: vec![],
            typed: vec![],
            slots: vec![Slot::default(); 1024],
        }
    }

    /// Takes a headword that was filed.
    pub fn take(&mut self, typed: &Typed, filed: Filed) {
        let headword = Headword {
            place: typed.place,
            numbering: filed.numbering,
            from: self.typed.len(),
            note: small(typed.note.len()),
            text: small(typed.text.len()),
        };
        self.typed.extend_from_slice(typed.text);
        self.typed.extend_from_slice(typed.note);
        match self.find(filed) {
            Ok(figure) => self.repeats.push((figure, headword)),
            Err(slot) => self.add(slot, filed.hash, headword),
        }
    }

    /// Reads what [`Figures::take`] will read for a block, so that it comes into the cache all at once
    /// and not piece after piece.
    pub fn read_ahead(&self, block: &Block) {
        let candidates = || {
            let filed = block.answers().filter_map(|(_, answer)| answer.ok());
            filed.filter_map(|filed| self.slots[self.home(filed.hash)].candidate(filed.hash))
        };
        hint::black_box(candidates().fold(0, |all, figure| all ^ figure));
        let kept = candidates().filter_map(|figure| self.all[figure as usize].record);
        let records = kept.map(|record| self.records[record as usize].as_bytes()[0]);
        hint::black_box(records.fold(0, |all, byte| all ^ byte));
    }

    /// The figure that has this record, or the slot for it.
    fn find(&mut self, filed: Filed) -> Result<u32, usize> {
        let mut at = self.home(filed.hash);
        while self.slots[at].number != 0 {
            let candidate = self.slots[at].candidate(filed.hash);
            if let Some(figure) = candidate.filter(|&figure| self.record(figure) == filed.record) {
                return Ok(figure);
            }
            at = (at + 1) % self.slots.len();
        }
        Err(at)
    }

    /// The record of a figure, which is kept from now on.
    fn record(&mut self, figure: u32) -> &Record {
        let figure = figure as usize;
        let kept = self.all[figure].record.unwrap_or_else(|| {
            let text = self.typed(&self.all[figure].first).text;
            let filed = Record::of_text(text, self.infinite);
            let (record, _) = filed.expect("the library accepts what it accepted before");
            self.records.push(record);
            small(self.records.len() - 1)
        });
        self.all[figure].record = Some(kept);
        &self.records[kept as usize]
    }

    fn add(&mut self, slot: usize, hash: u64, first: Headword) {
        self.all.push(Figure {
            first,
            hash,
            record: None,
        });
        self.slots[slot] = Slot {
            hash: upper(hash),
            number: small(self.all.len()),
        };
        if 2 * self.all.len() > self.slots.len() {
            self.grow();
        }
    }

    /// Makes a table of twice as many slots.
    fn grow(&mut self) {
        self.slots = vec![Slot::default(); 2 * self.slots.len()];
        for (number, figure) in (1..).zip(&self.all) {
            let mut at = self.home(figure.hash);
            while self.slots[at].number != 0 {
                at = (at + 1) % self.slots.len();
            }
            self.slots[at] = Slot {
                hash: upper(figure.hash),
                number,
            };
        }
    }

    #[allow(
        clippy::cast_possible_truncation,
        reason = "any bits of the hash serve"
    )]
    fn home(&self, hash: u64) -> usize {
        hash as usize % self.slots.len()
    }

    /// A headword as it was typed.
    pub fn typed(&self, headword: &Headword) -> Typed<'_> {
        let (text, note) = self.typed[headword.from..].split_at(headword.text.into());
        Typed {
            place: headword.place,
            text,
            note: &note[..headword.note.into()],
        }
    }

    /// How many figures there are.
    pub fn count(&self) -> usize {
        self.all.len()
    }

    /// Brings the headwords of each figure together.
    pub fn sort(&mut self) {
        self.repeats.sort_by_key(|&(figure, _)| figure); // stable, so each figure's stay in order
    }

    /// After [`Figures::sort`], the headwords of each figure that has more than one, in the order in
    /// which they came; the figures in the order of their first ones.
    pub fn groups(&self) -> impl Iterator<Item = Vec<&Headword>> + '_ {
        let groups = self.repeats.chunk_by(|(a, _), (b, _)| a == b);
        groups.map(|group| {
            let first = &self.all[group[0].0 as usize].first;
            let others = group.iter().map(|(_, headword)| headword);
            iter::once(first).chain(others).collect()
        })
    }
}

#[cfg(test)]
mod tests {
    use lexicon::Record;

    use super::{Figures, Filed, Numbering, Place, Typed};

    /// Takes texts as the headwords of lines 1, 2, 3..., each with a hash, and tells the groups.
    fn groups<'a>(headwords: impl IntoIterator<Item = (&'a str, u64)>) -> Vec<Vec<u64>> {
        let mut figures = Figures::new(false);
        for (line, (text, hash)) in (1..).zip(headwords) {
            let typed = Typed {
                place: Place { file: 0, line },
                text: text.as_bytes(),
                note: b"",
            };
            let (record, numbering) = Record::of_text(text, false).unwrap();
            let numbering = Numbering::new(&numbering);
            let record = &record;
            figures.take(
                &typed,
                Filed {
                    record,
                    hash,
                    numbering,
                },
            );
        }
        figures.sort();
        let lines = |group: Vec<&super::Headword>| {
            group.iter().map(|headword| headword.place.line).collect()
        };
        let groups = figures.groups().map(lines);
        groups.collect()
    }

    #[test]
    fn a_hash_only_finds_candidates() {
        let headwords = [("x3o", 7), ("x4o", 7), ("o3x", 7), ("x5o", 7), ("o4x", 7)];
        assert_eq!(groups(headwords), [[1, 3], [2, 5]]);
        // hashes with one half alike
        let headwords = [("x3o", 7), ("x4o", 7 + (1 << 32)), ("x5o", 7 + (1 << 20))];
        assert!(groups(headwords).is_empty());
    }

    #[test]
    fn figures_are_found_again_when_the_table_has_grown() {
        let texts: Vec<String> = (3..5003).map(|number| format!("x{number}o")).collect();
        let hashed = texts
            .iter()
            .map(|text| (&text[..], (text.len() as u64 % 3) << 31));
        let expected = (1..=5000).map(|line| vec![line, line + 5000]);
        assert!(groups(hashed.clone().chain(hashed))
            .into_iter()
            .eq(expected));
    }
}
