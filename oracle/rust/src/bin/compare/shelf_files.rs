//! Shelf files by chance, whole, with faults, and after a disk fault; records to be found in them or added. Records are the
//! smallest layouts of figures.rs, so that a fault of the port's own records can't hide one of its shelves. Most figures have
//! few nodes: what a record is, `compare pairs` compares.

use miratope::diagrams::LIMIT;

use crate::{
    chance,
    dice::Dice,
    figures::{Figure, PLAIN, RECORD},
    pairs::damage,
    shelf_model::Rescued,
    shelf_port::Rooms,
};

type Record = [u8; RECORD];

/// The most places of a file before its faults, of one in 32, and of the others.
const MOST_PLACES: usize = 40;
const PLACES: usize = 12;

/// A file, and the figures of its shelf before any fault.
pub struct Made {
    pub file: Vec<u8>,
    figures: Vec<Figure>,
}

/// A shelf, with one fault or more for five in nine.
pub fn any_file(dice: &mut Dice) -> Made {
    let most = if dice.one_in(32) { MOST_PLACES } else { PLACES };
    let mut figures = Vec::new();
    for _ in 0..dice.below(most + 1) {
        let figure = next_figure(dice, &figures);
        figures.push(figure);
    }
    let mut records: Vec<Record> = figures.iter().map(record).collect();
    records.sort_unstable();
    records.dedup();
    let mut file = records.concat();
    for _ in 0..dice.pick(&[0, 0, 0, 0, 1, 1, 1, 2, 3]) {
        fault(dice, &mut file);
    }
    Made { file, figures }
}

fn any_figure(dice: &mut Dice) -> Figure {
    let count = dice.pick(&[0, 1, 1, 2, 2, 2, 3, 3, 3, 3, 4, 4, 4, 5]);
    match dice.below(8) {
        0 => large_figure(dice),
        1 | 2 => chance::spherical(dice, count.max(1)),
        _ => chance::any_figure(dice, count),
    }
}

/// Up to nine nodes, so that records differ up to their last bytes; all different, so that the model finds theirs fast.
fn large_figure(dice: &mut Dice) -> Figure {
    let count = dice.within(6, LIMIT);
    let mut figure = chance::any_figure(dice, count);
    for node in 0..count {
        figure.set(node, chance::ringed(node as f64 + 1.0));
    }
    figure
}

/// Often one that differs from an earlier one in a single place, so that the two records have a long beginning in common.
fn next_figure(dice: &mut Dice, earlier: &[Figure]) -> Figure {
    if earlier.is_empty() || dice.one_in(2) {
        return any_figure(dice);
    }
    let near = dice.pick(earlier);
    if near.count == 0 {
        any_figure(dice)
    } else {
        chance::changed(dice, &near)
    }
}

fn record(figure: &Figure) -> Record {
    figure.renumbered(&figure.first_smallest()).layout()
}

/// The figure laid out in another numbering than its record's, if a few trials find one.
fn numbered_badly(dice: &mut Dice, figure: &Figure) -> Option<Record> {
    let right = record(figure);
    (0..8).find_map(|_| {
        let mut numbering = PLAIN;
        dice.shuffle(&mut numbering[..figure.count]);
        Some(figure.renumbered(&numbering).layout()).filter(|layout| *layout != right)
    })
}

/// One fault, but for chances that change nothing.
fn fault(dice: &mut Dice, file: &mut Vec<u8>) {
    let places = file.len() / RECORD;
    if places == 0 {
        return lengthen(dice, file);
    }
    let place = dice.below(places);
    let at = place * RECORD;
    match dice.below(10) {
        0 | 1 => damage(dice, place_of(file, place)),
        2 => damage_end(dice, place_of(file, place)),
        3 | 4 => number_badly(dice, place_of(file, place)),
        5 | 6 => {
            let twice = *place_of(file, place);
            file.splice(at..at, twice);
        }
        7 => exchange(dice, file, place),
        8 => {
            let any = dice.below(file.len());
            file.truncate(file.len() - dice.pick(&[1, RECORD - 1, RECORD, any]));
        }
        _ => lengthen(dice, file),
    }
}

fn place_of(file: &mut [u8], place: usize) -> &mut Record {
    let at = place * RECORD;
    (&mut file[at..at + RECORD]).try_into().unwrap()
}

/// Another layout of its figure for the place, if it has one and a few trials find another.
fn number_badly(dice: &mut Dice, place: &mut Record) {
    let bad = Figure::laid_out(place).and_then(|figure| numbered_badly(dice, &figure));
    bad.into_iter().for_each(|bad| *place = bad);
}

/// The first byte or the last.
fn damage_end(dice: &mut Dice, place: &mut Record) {
    let byte = dice.pick(&[0, RECORD - 1]);
    place[byte] ^= dice.within(1, 255) as u8;
}

/// The place with the one behind it, or with any.
fn exchange(dice: &mut Dice, file: &mut [u8], place: usize) {
    let places = file.len() / RECORD;
    let other = if dice.one_in(2) { (place + 1) % places } else { dice.below(places) };
    let (one, two) = (*place_of(file, place), *place_of(file, other));
    *place_of(file, place) = two;
    *place_of(file, other) = one;
}

/// Bytes behind the file: zeros, of which 370 are the record without nodes, or any.
fn lengthen(dice: &mut Dice, file: &mut Vec<u8>) {
    let any = dice.within(1, 2 * RECORD);
    let more = dice.pick(&[1, RECORD - 1, RECORD, RECORD, RECORD + 1, 2 * RECORD, any]);
    let zeros = dice.one_in(2);
    file.extend((0..more).map(|_| if zeros { 0 } else { dice.next() as u8 }));
}

impl Made {
    /// Bytes to be found or added: on the shelf, near to a record of it, or any; damaged, numbered badly, of another length;
    /// or a place as the file has it.
    pub fn asked(&self, dice: &mut Dice) -> Vec<u8> {
        let here = if self.figures.is_empty() { any_figure(dice) } else { dice.pick(&self.figures) };
        let mut bytes = record(&here);
        match dice.below(16) {
            0..=3 => {}
            4..=9 => bytes = record(&next_figure(dice, &self.figures)),
            10 => damage(dice, &mut bytes),
            11 => damage_end(dice, &mut bytes),
            12 => bytes = numbered_badly(dice, &here).unwrap_or(bytes),
            13 => return of_another_length(dice, &bytes),
            _ => {
                let places: Vec<&[u8]> = self.file.chunks_exact(RECORD).collect();
                return if places.is_empty() { vec![0; RECORD] } else { dice.pick(&places).to_vec() };
            }
        }
        bytes.to_vec()
    }

    /// The file after "A disk fault left a shelf with bad records and a cut tail": one place in two to one in eight has other
    /// bytes, some of which can still be read, and half of the files end elsewhere.
    pub fn after_disk_fault(&self, dice: &mut Dice) -> Vec<u8> {
        let mut file = self.file.clone();
        let share = dice.within(2, 8);
        for place in 0..file.len() / RECORD {
            if dice.one_in(share) {
                self.hurt(dice, place_of(&mut file, place));
            }
        }
        match dice.below(4) {
            0 => file.truncate(file.len().saturating_sub(dice.within(1, RECORD - 1))),
            1 => lengthen(dice, &mut file),
            _ => {}
        }
        file
    }

    fn hurt(&self, dice: &mut Dice, place: &mut Record) {
        match dice.below(8) {
            0..=2 => damage(dice, place),
            3 => damage_end(dice, place),
            4 | 5 => number_badly(dice, place),
            6 => *place = record(&next_figure(dice, &self.figures)),
            _ => place.iter_mut().for_each(|byte| *byte = dice.next() as u8),
        }
    }

    /// How many bytes are lent for the file with one record added: as many, fewer or more.
    pub fn room(&self, dice: &mut Dice) -> usize {
        let needs = self.file.len() + RECORD;
        match dice.below(8) {
            0..=2 => needs,
            3 | 4 => needs + dice.pick(&[1, 7, RECORD, 2 * RECORD + 1]),
            5 => needs - 1,
            6 => dice.pick(&[0, self.file.len(), RECORD]),
            _ => dice.below(needs),
        }
    }
}

/// How many bytes are lent for a rescue: as many as the file and its places need, fewer or more, at times as many as the
/// records kept have.
pub fn rooms(dice: &mut Dice, file: &[u8], rescued: &Rescued) -> Rooms {
    let (len, places) = (file.len(), rescued.marks.len());
    let out = match dice.below(8) {
        0..=3 => len,
        4 => len + dice.pick(&[1, 7, RECORD, 2 * RECORD + 1]),
        5 => len.saturating_sub(1),
        6 => rescued.kept.len() * RECORD,
        _ => dice.below(len + 1),
    };
    let marks = match dice.below(8) {
        0..=4 => places,
        5 => places + dice.pick(&[1, 7, 64, RECORD]),
        6 => places.saturating_sub(1),
        _ => dice.below(places + 1),
    };
    Rooms { out, marks }
}

/// Cut off, or with zeros behind.
fn of_another_length(dice: &mut Dice, bytes: &Record) -> Vec<u8> {
    let any = dice.below(2 * RECORD);
    let len = dice.pick(&[0, 1, RECORD - 1, RECORD + 1, 2 * RECORD, any]);
    let mut bytes = bytes.to_vec();
    bytes.resize(len, 0);
    bytes
}
