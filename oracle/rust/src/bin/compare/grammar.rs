//! Texts straight from the grammar: any tokens in a row, most of them accepted, and tokens at the limits.

use crate::{
    dice::Dice,
    lengths::{word, RINGED_LETTERS},
    spelling::{push_number, push_reference, TWOS},
};

#[rustfmt::skip]
const EDGES: [&str; 30] = [
    "3", "3", "3", "4", "4", "5", "6", "7", "8", "10", "12", "5/2", "5/2", "5/3", "5/4", "7/2", "7/3", "8/3", "10/3",
    "3/2", "6/2", "12/5", "1/5/3", "0/0/7/3", "003", "3/1", "1000000007", "4294967295", "4294967295/2",
    "4294967295/4294967294",
];

/// Appends so many nodes and references with edges between them. References are to nodes that the text has, and no pair is
/// joined twice, but for one case in many.
pub fn walk(dice: &mut Dice, text: &mut Vec<u8>, tokens: usize) {
    let count = dice.pick(&[0, 1, 2, 2, 3, 3, 3, 4, 4, 4, 5, 5, 6, 7, 8, 9]);
    let careless = dice.one_in(24);
    let (mut made, mut previous) = (0, None);
    let mut joined = [[false; 26]; 26];
    for _ in 0..tokens {
        spaces(dice, text);
        let makes = made < count && !dice.one_in(3);
        let here = match (makes, careless) {
            (true, _) => made,
            (false, false) if count > 0 => dice.below(count),
            (false, _) if dice.one_in(8) => dice.below(26),
            (false, _) => dice.below(count + 1),
        };
        if let Some(previous) = previous.replace(here).filter(|_| !dice.one_in(5)) {
            let again = joined[previous][here] || here >= count || previous >= count;
            let two = dice.one_in(12) || again && !careless;
            joined[previous][here] |= !two;
            joined[here][previous] |= !two;
            step(dice, text, two);
        }
        if makes {
            node(dice, text);
            made += 1;
        } else {
            let from_end = here < count && dice.one_in(2);
            push_reference(text, from_end, if from_end { count - 1 - here } else { here });
        }
    }
    // Nodes that references have counted on.
    text.extend((made..count).map(|_| b'o'));
}

/// An edge of a walk, with spaces behind it at times.
fn step(dice: &mut Dice, text: &mut Vec<u8>, two: bool) {
    match two {
        true => text.extend(dice.pick(&TWOS).bytes()),
        false if dice.one_in(8) => push_fraction(text, multiplied(dice)),
        false => text.extend(dice.pick(&EDGES).bytes()),
    }
    if dice.one_in(16) {
        text.push(b' ');
        spaces(dice, text);
    }
}

/// The terms of a fraction, twos among them, both times the same number, at times the largest that 32 bits allow.
fn multiplied(dice: &mut Dice) -> (usize, usize) {
    let bits = dice.within(1, 16);
    let num = dice.within(2, 1 << bits);
    let den = dice.within(1, num - 1);
    let most = u32::MAX as usize / num;
    let times = [dice.within(2, 9), dice.within(1, most), most];
    let times = dice.pick(&times);
    (num * times, den * times)
}

fn push_fraction(text: &mut Vec<u8>, (num, den): (usize, usize)) {
    push_number(text, num as u64);
    text.push(b'/');
    push_number(text, den as u64);
}

fn spaces(dice: &mut Dice, text: &mut Vec<u8>) {
    while dice.one_in(12) {
        text.push(dice.pick(b"  \t\n\x0b\x0c\r"));
    }
}

fn node(dice: &mut Dice, text: &mut Vec<u8>) {
    match dice.below(12) {
        0..=6 => text.push(dice.pick(b"xos")),
        7..=9 => text.push(dice.pick(RINGED_LETTERS)),
        _ => {
            text.push(b'(');
            literal(dice, text, false);
            text.push(b')');
        }
    }
}

/// The words of infinite literals, nan, and words that are nearly one of them.
#[rustfmt::skip]
const WORDS: [&str; 16] = [
    "inf", "inf", "inf", "inf", "infinity", "infinity", "infinity", "infinity", "nan", "nan", "in", "infi", "infinit",
    "infinityy", "(inf", "inf ",
];

/// A literal of any form. At the limits: about 15 digits, 3 exponent digits, powers of ten about −22 or 22.
fn literal(dice: &mut Dice, text: &mut Vec<u8>, at_limits: bool) {
    text.extend(dice.pick(&["", "", "", "+", "-"]).bytes());
    if dice.one_in(8) {
        let shown = if at_limits { dice.pick(&WORDS) } else { dice.pick(&["inf", "infinity"]) };
        return word(dice, shown, text);
    }
    let digits = if at_limits { dice.within(13, 17) } else { dice.within(1, 6) };
    let point = dice.one_in(2).then(|| dice.below(digits + 1));
    let zeros = if dice.one_in(3) { dice.below(digits + 1) } else { 0 };
    for i in 0..digits {
        if point == Some(i) {
            text.push(b'.');
        }
        text.push(if i < zeros { b'0' } else { dice.pick(b"0123456789") });
    }
    if point == Some(digits) {
        text.push(b'.');
    }
    if at_limits || dice.one_in(3) {
        let after = point.map_or(0, |point| digits - point);
        exponent(dice, text, after as i64, at_limits);
    }
}

/// An exponent that brings the power of ten, with so many digits after the point, to anything small or near a limit.
fn exponent(dice: &mut Dice, text: &mut Vec<u8>, after: i64, at_limits: bool) {
    let power = if at_limits { dice.pick(&[-24, -23, -22, -21, 0, 21, 22, 23, 24]) } else { dice.below(9) as i64 - 4 };
    let exponent = power + after;
    text.push(dice.pick(b"eE"));
    if exponent < 0 {
        text.push(b'-');
    } else if dice.one_in(3) {
        text.push(b'+');
    }
    let zeros = if at_limits { dice.below(4) } else { dice.below(2) };
    text.extend(std::iter::repeat_n(b'0', zeros));
    push_number(text, exponent.unsigned_abs());
}

/// A text of few tokens, one of which is at a limit.
pub fn at_limits(dice: &mut Dice, text: &mut Vec<u8>) {
    text.extend(dice.pick(&["", "x3", "o ", "x3o4", "*a", "\t"]).bytes());
    match dice.below(9) {
        0 | 1 => {
            text.push(b'(');
            literal(dice, text, true);
            text.push(b')');
        }
        2 | 3 => {
            text.push(b'x');
            edge(dice, text);
            text.extend(dice.pick(&["o", "(1)", "*a", " o", "\to", "@", "[", "`", "{", "", "."]).bytes());
        }
        4 => {
            text.push(b'(');
            pieces(dice, text, &NUMBERS, 6);
            text.push(b')');
        }
        5 | 6 => {
            text.push(b'o');
            pieces(dice, text, &QUEUED, 8);
        }
        7 => infinite(dice, text),
        _ => {
            let nodes = dice.within(7, 11);
            for _ in 0..nodes {
                node(dice, text);
                text.extend(dice.pick(&["", "3", " ", "2"]).bytes());
            }
            let k = (nodes + dice.below(3)).saturating_sub(2);
            push_reference(text, dice.one_in(2), k);
        }
    }
    text.extend(dice.pick(&["", "", "", "3o", "2*c", "3*b", " x", "_"]).bytes());
}

/// An infinite literal or nearly one, behind up to ten nodes and behind edges that are no fault before the text's end.
fn infinite(dice: &mut Dice, text: &mut Vec<u8>) {
    for _ in 0..dice.pick(&[0, 0, 1, 2, 7, 8, 9, 9, 10]) {
        node(dice, text);
        text.extend(dice.pick(&["", "", "3", " ", "2", "3*a", "3*z"]).bytes());
    }
    text.push(b'(');
    text.extend(dice.pick(&["", "", "", "+", "-", "+", "-", "+ ", "--"]).bytes());
    let shown = dice.pick(&WORDS);
    word(dice, shown, text);
    text.push(b')');
}

/// What may stand between parentheses.
#[rustfmt::skip]
const NUMBERS: [&str; 19] = [
    "0", "1", "9", ".", "e", "E", "+", "-", "1234567", "12345678", "00000000", "e2", "e-2", "e02", "inf", "INITY",
    "nAn", "x", " ",
];

/// Edges between few nodes, not all of which exist, and some pairs twice.
#[rustfmt::skip]
const QUEUED: [&str; 24] = [
    "3*a", "3*b", "3*c", "3*d", "3*-a", "3*-b", "3*-c", "3*-d", "2*a", "2*d", "2*-a", "2*-d", "*a", "*b", "*c", "*-b",
    "3x", "3o", "x", "o", "4/2s", "5/2*a", "6/2*b", "5/2*-b",
];

/// Appends one to `most` of the pieces.
pub fn pieces(dice: &mut Dice, text: &mut Vec<u8>, pieces: &[&str], most: usize) {
    for _ in 0..=dice.below(most) {
        let piece = dice.pick(pieces);
        text.extend(piece.bytes());
    }
}

/// One to four parts about the limits of 32 bits and of fractions, or empty; or terms with a common divisor, which are 7 the
/// wrong way round or alike.
fn edge(dice: &mut Dice, text: &mut Vec<u8>) {
    if dice.one_in(4) {
        let (num, den) = multiplied(dice);
        let typed = dice.pick(&[(num, den), (num, den), (den, num), (den, den)]);
        return push_fraction(text, typed);
    }
    for part in 0..dice.within(1, 4) {
        if part > 0 {
            text.push(b'/');
        }
        text.extend(std::iter::repeat_n(b'0', dice.pick(&[0, 0, 0, 1, 9])));
        match dice.below(8) {
            0 | 1 => push_number(text, (1 << 32) - 2 + dice.below(4) as u64),
            2 => push_number(text, (1 << 31) - 2 + dice.below(4) as u64),
            3 => push_number(text, dice.next() >> dice.below(64)),
            4 => {}
            _ => push_number(text, dice.below(6) as u64),
        }
    }
}
