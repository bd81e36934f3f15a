//! Lines that are filed together, by one of the threads.

use std::{fmt::Display, hash::BuildHasher};

use lexicon::{CdError, CdResult, Record};

/// How records are hashed. Its key is the run's own, so that no list of texts can be made that takes
/// long.
pub type Hash = ahash::RandomState;

/// Few enough to stay in a cache, and enough that passing them on costs next to nothing.
const LINES: usize = 1024;

/// A line of a file, counted from 1.
#[derive(Clone, Copy)]
pub struct Place {
    pub file: u32,
    pub line: u64,
}

/// A headword as it was typed.
pub struct Typed<'a> {
    pub place: Place,
    pub text: &'a [u8],
    pub note: &'a [u8],
}

/// The record of a text, and the numbering that gives it.
#[derive(Clone, Copy)]
pub struct Filed<'a> {
    pub record: &'a Record,
    pub hash: u64,
    pub numbering: Numbering,
}

/// For each place of a record the node of a text that stands there, four bits each.
#[derive(Clone, Copy)]
pub struct Numbering {
    nodes: u64,
    count: u8,
}

impl Numbering {
    pub fn new(numbering: &[usize]) -> Self {
        let nodes = numbering.iter().rev();
        Self {
            nodes: nodes.fold(0, |all, &node| all << 4 | node as u64),
            count: small(numbering.len()),
        }
    }

    fn node(self, place: u8) -> usize {
        (self.nodes >> (4 * place) & 15) as usize
    }

    /// At which place of the record each node stands.
    pub fn places(self) -> Vec<u8> {
        let mut places = vec![0; self.count.into()];
        for place in 0..self.count {
            places[self.node(place)] = place;
        }
        places
    }

    /// The nodes that stand at these places of the record. Those at the places of another text's nodes
    /// correspond to them, as the library's `corresponding_nodes` tells it.
    pub fn nodes(self, places: &[u8]) -> impl Iterator<Item = usize> + '_ {
        places.iter().map(move |&place| self.node(place))
    }
}

/// Lines, and the library's answers to their texts.
#[derive(Default)]
pub struct Block {
    lines: Vec<Line>,
    /// Texts and notes, one after another.
    typed: Vec<u8>,
    /// At the place of each line its record, if it is accepted.
    records: Vec<Record>,
}

struct Line {
    place: Place,
    /// Where its text begins among all that was typed, where its note begins, and where that ends.
    typed: [usize; 3],
    /// The library's answer, once it was asked: a record's hash and its numbering.
    answer: Option<CdResult<(u64, Numbering)>>,
}

impl Block {
    pub fn is_full(&self) -> bool {
        self.lines.len() == LINES
    }

    pub fn clear(&mut self) {
        self.lines.clear();
        self.typed.clear();
    }

    pub fn push(&mut self, typed: &Typed) {
        let from = self.typed.len();
        self.typed.extend_from_slice(typed.text);
        self.typed.extend_from_slice(typed.note);
        self.lines.push(Line {
            place: typed.place,
            typed: [from, from + typed.text.len(), self.typed.len()],
            answer: None,
        });
    }

    /// Has the library answer all lines.
    pub fn file(&mut self, hash: &Hash, infinite: bool) {
        let none = Record::from_trusted_bytes(&[0; Record::LEN]);
        self.records.resize(self.lines.len(), none);
        for (line, record) in self.lines.iter_mut().zip(&mut self.records) {
            let [from, to, _] = line.typed;
            let numbering = record.write(&self.typed[from..to], infinite);
            let filed = |numbering: Vec<usize>| (hash.hash_one(record), Numbering::new(&numbering));
            line.answer = Some(numbering.map(filed));
        }
    }

    /// What was typed on each line, and what the library answers to it.
    pub fn answers(&self) -> impl Iterator<Item = (Typed<'_>, Result<Filed<'_>, &CdError>)> {
        let lines = self.lines.iter().zip(&self.records);
        lines.filter_map(|(line, record)| {
            let [from, middle, to] = line.typed;
            let typed = Typed {
                place: line.place,
                text: &self.typed[from..middle],
                note: &self.typed[middle..to],
            };
            let answer = line.answer.as_ref()?.as_ref();
            let filed = answer.map(|&(hash, numbering)| Filed {
                record,
                hash,
                numbering,
            });
            Some((typed, filed))
        })
    }
}

/// A number in as many bits as it needs: an accepted text has at most 255 bytes and nine nodes, of a
/// line 4,096 bytes are kept, and 2^32 figures need some hundred gigabytes.
pub fn small<U>(number: impl TryInto<U> + Copy + Display) -> U {
    let small = number.try_into();
    small.unwrap_or_else(|_| panic!("{number} is more than this program can keep"))
}
