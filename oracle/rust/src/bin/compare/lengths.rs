//! Nodes in their spellings: letters, and literals of every form that gives the same length.

use miratope::{
    cox::cd::Node,
    diagrams::{Place, RINGED, SNUB, UNRINGED},
};

use crate::{dice::Dice, spelling::push_number};

/// The letters of ringed nodes.
pub const RINGED_LETTERS: &[u8] = b"xvqfhkuwFeQdVUAXB";

/// Appends a node; one choice in `seldom` is an odd one.
pub fn put(dice: &mut Dice, place: Place, seldom: usize, text: &mut Vec<u8>) {
    match place.kind {
        UNRINGED => text.push(b'o'),
        SNUB => text.push(b's'),
        _ => match letter(place.bits) {
            Some(letter) if !(dice.one_in(seldom) && has_literal(place.bits)) => text.push(letter),
            _ => literal(dice, place.bits, seldom, text),
        },
    }
}

/// The letter of a length, if it has one.
fn letter(bits: u64) -> Option<u8> {
    let is = |letter: &&u8| Place::of(Node::from_char(char::from(**letter)).unwrap()) == Place { kind: RINGED, bits };
    RINGED_LETTERS.iter().find(is).copied()
}

/// Whether fifteen digits and a power of ten from −22 to 22 write the length.
pub fn has_literal(bits: u64) -> bool {
    let value = f64::from_bits(bits);
    value.is_infinite() || Decimal::of(value.abs()).is_some()
}

/// Appends a literal of the length, in parentheses; the length has one.
fn literal(dice: &mut Dice, bits: u64, seldom: usize, text: &mut Vec<u8>) {
    let value = f64::from_bits(bits);
    text.push(b'(');
    if value.is_sign_negative() {
        text.push(b'-');
    } else if dice.one_in(seldom) {
        text.push(b'+');
    }
    if value.is_infinite() {
        let infinity = dice.pick(&["inf", "infinity"]);
        word(dice, infinity, text);
    } else {
        let decimal = Decimal::of(value.abs()).expect("a length without a literal");
        decimal.put(dice, seldom, text);
    }
    text.push(b')');
}

/// In any mixture of case.
pub fn word(dice: &mut Dice, word: &str, text: &mut Vec<u8>) {
    text.extend(word.bytes().map(|byte| if dice.one_in(3) { byte.to_ascii_uppercase() } else { byte }));
}

/// The shortest decimal of a double: digits and a power of ten.
struct Decimal {
    digits: Vec<u8>,
    power: i32,
    /// How many zeros must and may be added behind the digits, so that they are fifteen at most and the power is from −22
    /// to 22.
    zeros: (usize, usize),
}

impl Decimal {
    fn of(value: f64) -> Option<Self> {
        let shortest = format!("{value:e}");
        let (mantissa, exponent) = shortest.split_once('e')?;
        let digits: Vec<u8> = mantissa.bytes().filter(|&byte| byte != b'.').collect();
        let power = exponent.parse::<i32>().ok()? - (digits.len() as i32 - 1);
        let (least, most) = ((power - 22).max(0), (15 - digits.len() as i32).min(power + 22));
        (least <= most).then_some(Self { digits, power, zeros: (least as usize, most as usize) })
    }

    /// Zeros may be added on both ends, and the point may stand anywhere.
    fn put(mut self, dice: &mut Dice, seldom: usize, text: &mut Vec<u8>) {
        let (least, most) = self.zeros;
        let zeros = if dice.one_in(seldom) { dice.within(least, most) } else { least };
        let power = self.power - zeros as i32;
        self.digits.resize(self.digits.len() + zeros, b'0');
        while self.digits.len() < 15 && dice.one_in(seldom) {
            self.digits.insert(0, b'0');
        }
        let all = self.digits.len();
        let after = if dice.one_in(seldom) { dice.below(all + 1) } else { (-power).clamp(0, all as i32) as usize };
        let (whole, part) = self.digits.split_at(all - after);
        text.extend(whole);
        if after > 0 || dice.one_in(seldom) {
            text.push(b'.');
        }
        text.extend(part);
        push_exponent(dice, power + after as i32, seldom, text);
    }
}

fn push_exponent(dice: &mut Dice, exponent: i32, seldom: usize, text: &mut Vec<u8>) {
    if exponent == 0 && !dice.one_in(seldom) {
        return;
    }
    text.push(dice.pick(b"eE"));
    if exponent < 0 {
        text.push(b'-');
    } else if dice.one_in(seldom) {
        text.push(b'+');
    }
    if dice.one_in(seldom) {
        text.push(b'0'); // to three digits at most: the exponent has two
    }
    push_number(text, exponent.unsigned_abs().into());
}
