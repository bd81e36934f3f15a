//! Texts for a figure: its nodes in any order, its edges in any order and direction, fractions in any of their
//! spellings, loops.

use miratope::diagrams::{Fraction, LIMIT};

use crate::{
    chance,
    dice::Dice,
    figures::{Figure, Numbering, PLAIN},
    lengths,
};

/// Edges that join nothing.
pub const TWOS: [&str; 8] = ["2", "2", "4/2", "6/3", "02", "2/1", "3/4/2", "4294967294/2147483647"];

/// How often a node gets a loop, which a figure disregards.
#[derive(Clone, Copy)]
pub enum Looped {
    /// As seldom as an odd choice is, of 3.
    Seldom,
    /// Every other time, of any fraction.
    Often,
}

impl Looped {
    fn any_loop(self, dice: &mut Dice, seldom: usize) -> Option<Fraction> {
        match self {
            Self::Seldom => dice.one_in(seldom * 4).then_some(Fraction { num: 3, den: 1 }),
            Self::Often => dice.one_in(2).then(|| chance::any_fraction(dice)),
        }
    }
}

/// The loop of each node, if it has one.
pub type Loops = [Option<Fraction>; LIMIT];

/// A text for a figure: node i of the text is the figure's order[i], and node i of the figure has loops[i].
pub struct Spelling {
    pub text: Vec<u8>,
    pub order: Numbering,
    pub loops: Loops,
}

/// Appends a text for the figure and answers its order and its loops, as `Spelling` has them. One choice in `seldom` is an odd
/// one.
pub fn spell(
    dice: &mut Dice,
    figure: &Figure,
    seldom: usize,
    looped: Looped,
    text: &mut Vec<u8>,
) -> (Numbering, Loops) {
    let order = if dice.one_in(3) { shuffled(dice, figure) } else { stroll(dice, figure) };
    let figure = figure.renumbered(&order);
    let mut left: Vec<_> = figure.joined_pairs().map(|(i, j)| (i, j, figure.pair(i, j))).collect();
    let mut loops = [None; LIMIT];
    for (i, &node) in order[..figure.count].iter().enumerate() {
        loops[node] = looped.any_loop(dice, seldom);
        left.extend(loops[node].map(|fraction| (i, i, fraction)));
    }

    let mut walk = Walk { dice, figure, left, made: 0, here: None, seldom, text };
    while walk.made < figure.count || !walk.left.is_empty() {
        walk.step();
    }
    if figure.count == 0 {
        walk.no_nodes();
    }
    (order, loops)
}

/// A text of 255 bytes or less for the figure, if one is found: odd, else plain, and at last with few loops.
pub fn short_spelling(dice: &mut Dice, figure: &Figure, seldom: usize, looped: Looped) -> Option<Spelling> {
    for (seldom, looped) in [(seldom, looped), (1000, looped), (1000, Looped::Seldom)] {
        let mut text = Vec::new();
        let (order, loops) = spell(dice, figure, seldom, looped, &mut text);
        if text.len() <= 255 {
            return Some(Spelling { text, order, loops });
        }
    }
    None
}

fn shuffled(dice: &mut Dice, figure: &Figure) -> Numbering {
    let mut order = PLAIN;
    dice.shuffle(&mut order[..figure.count]);
    order
}

/// From neighbour to neighbour where one is left, else from a node of few neighbours: so numbered, a chain can be written
/// as one.
fn stroll(dice: &mut Dice, figure: &Figure) -> Numbering {
    let mut order = shuffled(dice, figure);
    let degree = |node: usize| (0..figure.count).filter(|&other| figure.joined(node, other)).count();
    for place in 0..figure.count {
        let next = (place..figure.count).min_by_key(|&later| {
            let apart = place == 0 || !figure.joined(order[place - 1], order[later]);
            (apart, degree(order[later]))
        });
        order.swap(place, next.unwrap());
    }
    order
}

/// A text that makes the figure's nodes by rising index and goes over every edge once. A reference may stand before the node
/// that it means; a two changes nothing.
struct Walk<'a> {
    dice: &'a mut Dice,
    figure: Figure,
    left: Vec<(usize, usize, Fraction)>,
    made: usize,
    here: Option<usize>,
    seldom: usize,
    text: &'a mut Vec<u8>,
}

impl Walk<'_> {
    fn odd(&mut self) -> bool {
        self.dice.one_in(self.seldom)
    }

    fn step(&mut self) {
        let way = self.way();
        let there = match way {
            Some((a, b, _)) => a + b - self.here.unwrap(),
            None if self.made < self.figure.count && (self.left.is_empty() || self.dice.one_in(2)) => self.made,
            None => {
                let (a, b, _) = self.dice.pick(&self.left);
                self.dice.pick(&[a, b])
            }
        };
        self.spaces();
        match way {
            Some((.., edge)) => self.fraction(edge),
            None if self.here.is_some() && self.odd() => self.two(),
            None => {}
        }
        if there == self.made && !self.odd() {
            lengths::put(self.dice, self.figure.nodes()[there], self.seldom, self.text);
            self.made += 1;
        } else {
            self.reference(there);
        }
        self.here = Some(there);
    }

    /// An edge that starts here, taken out of those left.
    fn way(&mut self) -> Option<(usize, usize, Fraction)> {
        let here = self.here?;
        let starts = |&(a, b, _): &(usize, usize, Fraction)| a == here || b == here;
        let ways = self.left.iter().filter(|way| starts(way)).count();
        if ways == 0 || self.odd() {
            return None;
        }
        let nth = self.dice.below(ways);
        let place = self.left.iter().enumerate().filter(|(_, way)| starts(way)).nth(nth)?.0;
        Some(self.left.swap_remove(place))
    }

    fn spaces(&mut self) {
        while self.odd() {
            self.text.push(self.dice.pick(b"  \t\n\x0b\x0c\r"));
        }
    }

    /// Byte 32 and no other space may follow an edge.
    fn space_after_edge(&mut self) {
        if self.odd() {
            self.text.push(b' ');
            self.spaces();
        }
    }

    fn two(&mut self) {
        let two = self.dice.pick(&TWOS);
        self.text.extend(two.bytes());
        self.space_after_edge();
    }

    fn fraction(&mut self, Fraction { num, den }: Fraction) {
        let times = if self.odd() { self.dice.pick(&[2, 3, 4, 5, 7, 11, u32::MAX / num]) } else { 1 };
        let times = if num.checked_mul(times).is_some() { times } else { 1 };
        if self.odd() {
            // Only the last two parts count.
            let part = self.dice.pick(&["1/", "0/", "7/3/", "4294967295/"]);
            self.text.extend(part.bytes());
            push_number(self.text, (num * times).into());
            self.text.push(b'/');
            push_number(self.text, (den * times).into());
            return self.space_after_edge();
        }
        if self.odd() {
            self.text.push(b'0');
        }
        push_number(self.text, (num * times).into());
        if den * times != 1 || self.odd() {
            self.text.push(b'/');
            push_number(self.text, (den * times).into());
        }
        self.space_after_edge();
    }

    fn reference(&mut self, node: usize) {
        let (from_end, count) = (self.dice.one_in(3), self.figure.count);
        push_reference(self.text, from_end, if from_end { count - 1 - node } else { node });
    }

    /// A text needs a node or a reference; without an edge that is no two, references to nothing are no fault.
    fn no_nodes(&mut self) {
        loop {
            let (from_end, k) = (self.odd(), self.dice.below(26));
            push_reference(self.text, from_end, k);
            if !self.odd() {
                return;
            }
            self.spaces();
            if self.odd() {
                self.two();
            }
        }
    }
}

pub fn push_number(text: &mut Vec<u8>, number: u64) {
    if number >= 10 {
        push_number(text, number / 10);
    }
    text.push(b'0' + (number % 10) as u8);
}

pub fn push_reference(text: &mut Vec<u8>, from_end: bool, k: usize) {
    text.push(b'*');
    if from_end {
        text.push(b'-');
    }
    text.push(b'a' + k as u8);
}
