//! The texts of `compare texts`: fixed ones first (every short text of an alphabet, every pair of bytes, the limits), then
//! texts by chance, each decided by the seed and its index alone.

use crate::{
    chance,
    dice::Dice,
    grammar, limit_texts,
    spelling::{self, push_number, Looped},
};

/// Bytes that a reader tells apart: letters of nodes and others, digits, signs, spaces, and the bytes on both sides of the
/// ranges that document 01 names.
const ALPHABET: [u8; 32] = *b"osxFe0129 3/()*-.+\t_[zacA@{\x00\x7f\xe9\x0ei";

/// The longest texts over the alphabet.
const SHORT: u32 = 3;

pub struct Texts {
    seed: u64,
    limits: Vec<Vec<u8>>,
}

/// Texts of up to `SHORT` bytes, counted in the alphabet.
const SHORTS: u64 = {
    let (mut all, mut len) = (0, 0);
    while len <= SHORT {
        all += (ALPHABET.len() as u64).pow(len);
        len += 1;
    }
    all
};
const BYTES: u64 = 256;

impl Texts {
    pub fn new(seed: u64) -> Self {
        Self { seed, limits: limit_texts::all() }
    }

    /// How many texts come before those by chance.
    pub fn fixed(&self) -> u64 {
        SHORTS + BYTES + BYTES * BYTES + self.limits.len() as u64
    }

    /// Puts the text of the index into `text`; `other` is for its work.
    pub fn put(&self, index: u64, text: &mut Vec<u8>, other: &mut Vec<u8>) {
        text.clear();
        let mut rest = index;
        for (count, put) in [(SHORTS, short as fn(u64, &mut Vec<u8>)), (BYTES, one), (BYTES * BYTES, two)] {
            if rest < count {
                return put(rest, text);
            }
            rest -= count;
        }
        match self.limits.get(rest as usize) {
            Some(limit) => text.extend(limit),
            None => by_chance(&mut Dice::new(self.seed, index), text, other),
        }
    }
}

/// By rising length, then in the order of the alphabet.
fn short(mut index: u64, text: &mut Vec<u8>) {
    let letters = ALPHABET.len() as u64;
    let (mut len, mut count) = (0, 1);
    while index >= count {
        index -= count;
        count *= letters;
        len += 1;
    }
    for _ in 0..len {
        text.push(ALPHABET[(index % letters) as usize]);
        index /= letters;
    }
}

fn one(index: u64, text: &mut Vec<u8>) {
    text.push(index as u8);
}

fn two(index: u64, text: &mut Vec<u8>) {
    text.extend([(index / BYTES) as u8, index as u8]);
}

/// Bytes that a reader tells apart, and pieces that are long to come by byte for byte.
#[rustfmt::skip]
const PIECES: [&str; 50] = [
    "x", "o", "s", "3", "2", "1", "4", "/", "*", "-", "a", "b", "(", ")", ".", " ", "\t", "_", "z", "e", "+", "~",
    "0", "x3o", "*a", "*-a", "*b", "(1)", "(1.5)", "(1e", "(-", "inf", "nan", "e-2", "5/2", "4294967295",
    "4294967296", "00000000", "ooo", "x3", "3*a", "2*c", "3*-b", "(-0)", "(inf)", "(-Infinity)", "\n", "\x0b",
    "\u{e9}", "\u{a0}",
];

/// About two of five are damaged.
fn by_chance(dice: &mut Dice, text: &mut Vec<u8>, other: &mut Vec<u8>) {
    match dice.below(32) {
        0..=15 => whole(dice, text),
        16..=24 => {
            whole(dice, text);
            other.clear();
            whole(dice, other);
            for _ in 0..dice.pick(&[1, 1, 1, 2, 3]) {
                damage(dice, text, other);
            }
        }
        25..=27 => grammar::at_limits(dice, text),
        28..=29 => grammar::pieces(dice, text, &PIECES, 10),
        30 => long(dice, text),
        _ => raw(dice, text),
    }
}

/// A text that is accepted, or nearly.
fn whole(dice: &mut Dice, text: &mut Vec<u8>) {
    let seldom = dice.pick(&[4, 10, 40, 1000]);
    let most = dice.pick(&[2, 3, 4, 4, 5, 6, 7, 8, 9]);
    match dice.below(8) {
        0..=3 => {
            let figure = chance::spherical(dice, most);
            spelling::spell(dice, &figure, seldom, Looped::Seldom, text);
        }
        4 => {
            let count = dice.within(0, most);
            let figure = chance::any_figure(dice, count);
            spelling::spell(dice, &figure, seldom, Looped::Seldom, text);
        }
        _ => {
            let tokens = dice.within(1, 12);
            grammar::walk(dice, text, tokens);
        }
    }
}

const CHANGED: &[u8] = b"oxsFk0123459/()*-.eE+ \t_[zabc\x00\x7f\xc3\xa0inf";

/// A byte changed, removed, inserted, doubled or swapped with the next, the text cut short, or a piece of another put in.
fn damage(dice: &mut Dice, text: &mut Vec<u8>, other: &[u8]) {
    if text.is_empty() {
        return;
    }
    let at = dice.below(text.len());
    match dice.below(8) {
        0 => text[at] = dice.pick(CHANGED),
        1 => text[at] = text[at].wrapping_add(dice.pick(&[1, 255, 32, 224])),
        2 => drop(text.remove(at)),
        3 => text.insert(at, dice.pick(CHANGED)),
        4 => text.insert(at, text[at]),
        5 => {
            let next = (at + 1) % text.len();
            text.swap(at, next);
        }
        6 => text.truncate(at),
        _ => {
            let from = dice.below(other.len() + 1);
            let to = dice.within(from, other.len().min(from + 6));
            text.splice(at..at, other[from..to].iter().copied());
        }
    }
}

/// About 255 bytes, whole or damaged: as many tokens as it takes, and spaces in front up to the length.
fn long(dice: &mut Dice, text: &mut Vec<u8>) {
    let length = dice.pick(&[100, 200, 253, 254, 255, 255, 256, 257, 300]);
    let tokens = dice.within(length / 9, length / 3);
    grammar::walk(dice, text, tokens);
    text.truncate(length);
    let spaces = if dice.one_in(2) { length - text.len() } else { dice.below(length - text.len() + 1) };
    text.splice(0..0, std::iter::repeat_n(b' ', spaces));
    if dice.one_in(4) {
        damage(dice, text, b"3o");
    }
}

/// Bytes of any value, or characters of more than one byte in a text.
fn raw(dice: &mut Dice, text: &mut Vec<u8>) {
    if dice.one_in(2) {
        let len = dice.below(9);
        text.extend((0..len).map(|_| dice.next() as u8));
        return;
    }
    whole(dice, text);
    for _ in 0..dice.within(1, 2) {
        let at = dice.below(text.len() + 1);
        let character = dice.pick(&["\u{e9}", "\u{a0}", "\u{85}", "\u{3b1}", "\u{2003}", "\u{1d400}", "\u{80}"]);
        text.splice(at..at, character.bytes());
    }
    if dice.one_in(8) {
        push_number(text, dice.next());
    }
}
