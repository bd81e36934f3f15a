//! Figures by chance: any, those of finite groups, those of nearly infinite ones, and figures that differ from a given one in
//! one place.

use miratope::{
    cox::cd::Node,
    diagrams::{Fraction, Place, EMPTY, LIMIT, RINGED, SNUB},
};

use crate::{
    dice::Dice,
    figures::{Figure, UNJOINED},
    lengths::{self, RINGED_LETTERS},
};

const POWERS: [f64; 23] = [
    1e0, 1e1, 1e2, 1e3, 1e4, 1e5, 1e6, 1e7, 1e8, 1e9, 1e10, 1e11, 1e12, 1e13, 1e14, 1e15, 1e16, 1e17, 1e18, 1e19, 1e20,
    1e21, 1e22,
];

pub const SNUB_NODE: Place = Place { kind: SNUB, bits: 1f64.to_bits() };

pub fn ringed(value: f64) -> Place {
    Place { kind: RINGED, bits: value.to_bits() }
}

/// A node of any sort, mostly one of those that diagrams are full of.
pub fn any_node(dice: &mut Dice) -> Place {
    match dice.below(16) {
        0..=4 => EMPTY,
        5..=9 => ringed(1.0),
        10 | 11 => SNUB_NODE,
        12 | 13 => Place::of(Node::from_char(char::from(dice.pick(RINGED_LETTERS))).unwrap()),
        _ => ringed(length(dice)),
    }
}

/// A node of finite length: half of them by `any_node`, half ringed with a length from 0 to 10, one in eight of these negative.
pub fn finite_node(dice: &mut Dice) -> Place {
    if dice.one_in(2) {
        let value = dice.below(1_000_000) as f64 / 1e5;
        return ringed(if dice.one_in(8) { -value } else { value });
    }
    loop {
        let node = any_node(dice);
        if f64::from_bits(node.bits).is_finite() {
            return node;
        }
    }
}

/// A length that has a literal.
fn length(dice: &mut Dice) -> f64 {
    let value = match dice.below(8) {
        0 => 0.0,
        1 => f64::INFINITY,
        2..=4 => dice.pick(&[1.5, 2.0, 0.5, 1e22, 1e-22, 999_999_999_999_999.0]),
        _ => decimal(dice),
    };
    if dice.one_in(4) {
        -value
    } else {
        value
    }
}

/// Up to fifteen digits and a power of ten. "The value is w × 10^p or w ÷ 10^−p as one double operation."
fn decimal(dice: &mut Dice) -> f64 {
    let digits = dice.within(1, 15);
    let w = (dice.next() % 10_u64.pow(digits as u32)) as f64;
    let power = POWERS[if dice.one_in(2) { dice.below(23) } else { dice.below(4) }];
    if dice.one_in(2) {
        w * power
    } else {
        w / power
    }
}

const USUAL: [(u32, u32); 14] =
    [(3, 1), (3, 1), (3, 1), (4, 1), (4, 1), (5, 1), (6, 1), (5, 2), (5, 3), (5, 4), (7, 2), (7, 3), (8, 3), (3, 2)];

/// An edge's fraction, no two, in lowest terms.
pub fn any_fraction(dice: &mut Dice) -> Fraction {
    let (num, den) = match dice.below(20) {
        0 => (u32::MAX - dice.below(4) as u32, 1 + dice.below(4) as u32),
        1 => {
            // Neighbours among these have one quotient as doubles.
            let num = u32::MAX - dice.below(4) as u32;
            (num, num - 1 - dice.below(3) as u32)
        }
        2 => {
            let num = 3 + dice.below(40) as u32;
            (num, 1 + dice.below(num as usize - 1) as u32)
        }
        3 => nearly_parallel(dice),
        _ => dice.pick(&USUAL),
    };
    let fraction = Fraction { num, den }.lowest();
    if fraction == UNJOINED {
        Fraction { num: 3, den: 1 }
    } else {
        fraction
    }
}

/// Two mirrors at the edge of refusal 15: the cosine's square is 1 − 1e-7 where sin(π ÷ x) is the root of 1e-7.
fn nearly_parallel(dice: &mut Dice) -> (u32, u32) {
    let edge = std::f64::consts::PI / 1e-7_f64.sqrt().asin();
    let most = (f64::from(u32::MAX) / edge) as usize;
    let den = if dice.one_in(2) { dice.within(1, 99) } else { dice.within(most / 2, most - 1) };
    let num = (edge * den as f64) as u32 - 2 + dice.below(5) as u32;
    (num, den as u32)
}

/// A figure of few sorts of nodes and fractions, so that much in it is alike.
pub fn any_figure(dice: &mut Dice, count: usize) -> Figure {
    let sorts = [any_node(dice), any_node(dice), any_node(dice)];
    let sorts = &sorts[..dice.within(1, 3)];
    let fractions = [any_fraction(dice), any_fraction(dice)];
    let fractions = &fractions[..dice.within(1, 2)];
    let dense = dice.within(0, 8);

    let mut figure = Figure::new(&[EMPTY; LIMIT][..count]);
    for node in 0..count {
        figure.set(node, dice.pick(sorts));
    }
    for (i, j) in figure.all_pairs() {
        if dice.below(8) < dense {
            figure.join(i, j, dice.pick(fractions));
        }
    }
    figure
}

/// The chains of regular polytopes, stars among them, in groups that are finite; with the branches of D and E apart.
const CHAINS: [&[(u32, u32)]; 17] = [
    &[(4, 1), (3, 1), (4, 1)], // infinite, for 15
    &[(5, 1), (3, 1)],
    &[(5, 2), (5, 1)],
    &[(5, 2), (3, 1)],
    &[(5, 1), (3, 1), (3, 1)],
    &[(3, 1), (4, 1), (3, 1)],
    &[(5, 2), (5, 1), (3, 1)],
    &[(5, 1), (5, 2), (5, 1)],
    &[(5, 1), (3, 1), (5, 2)],
    &[(5, 2), (3, 1), (5, 1)],
    &[(5, 2), (5, 1), (5, 2)],
    &[(5, 1), (5, 2), (3, 1)],
    &[(3, 1), (5, 1), (5, 2)],
    &[(3, 1), (3, 1), (5, 2)],
    &[(3, 2), (3, 1)],
    &[(4, 3), (3, 1)],
    &[(5, 3), (3, 1)],
];

/// A product of groups, nearly all finite, on up to nine nodes, with nodes of few sorts.
pub fn spherical(dice: &mut Dice, most: usize) -> Figure {
    let mut figure = Figure::new(&[]);
    let sorts = [any_node(dice), any_node(dice), EMPTY];
    loop {
        let start = figure.count;
        component(dice, &mut figure, most);
        for node in start..figure.count {
            figure.set(node, dice.pick(&sorts));
        }
        if figure.count == most || dice.one_in(2) {
            return figure;
        }
    }
}

/// Adds a component as long as there is room.
fn component(dice: &mut Dice, figure: &mut Figure, most: usize) {
    let (start, room) = (figure.count, most - figure.count);
    let of = |(num, den)| Fraction { num, den };
    let sort = dice.below(12);
    if sort < 4 && room >= 3 {
        let chain = dice.pick(&CHAINS);
        let len = chain.len().min(room - 1);
        figure.count += len + 1;
        for (i, &fraction) in chain[..len].iter().enumerate() {
            figure.join(start + i, start + i + 1, of(fraction));
        }
    } else if sort < 6 && room >= 2 {
        figure.count += 2;
        let fraction = any_fraction(dice);
        figure.join(start, start + 1, fraction);
    } else {
        let len = dice.within(1, room);
        figure.count += len;
        for i in start + 1..figure.count {
            figure.join(i - 1, i, of((3, 1)));
        }
        match sort {
            6 | 7 if len >= 2 => figure.join(start, start + 1, of((4, 1))),
            // D and E: the first node branches off the third, or the fourth.
            8 | 9 if len >= 4 => branch(figure, start, 2),
            10 if (5..=8).contains(&len) => branch(figure, start, 3),
            _ => {}
        }
    }
}

/// Chains of infinite groups without proper parts that are infinite too; those that begin and end with 4 apart.
const AFFINE_CHAINS: [&[u32]; 5] = [&[6, 3], &[3, 6], &[4, 4], &[3, 4, 3, 3], &[3, 3, 4, 3]];

/// Arms of three or four on one node, of infinite groups likewise, all their edges 3.
const AFFINE_ARMS: [&[usize]; 4] = [&[1, 1, 1, 1], &[2, 2, 2], &[3, 3, 1], &[5, 2, 1]];

/// A cycle, a chain or a star whose group would be infinite, but for one edge, which has a fraction less by a ten-billionth of
/// it to a third, or two nodes: walls that are crowded as much or little. All nodes are unringed.
pub fn crowded(dice: &mut Dice) -> Figure {
    let edges: Vec<(usize, usize, u32)> = match dice.below(8) {
        0 => return polygon(dice),
        1 | 2 => {
            let count = dice.within(3, LIMIT);
            (0..count).map(|i| (i, (i + 1) % count, 3)).collect()
        }
        3 | 4 => {
            let mut chain = vec![3; dice.within(2, LIMIT - 1)];
            (chain[0], *chain.last_mut().unwrap()) = (4, 4);
            joined_up(&chain)
        }
        5 => joined_up(dice.pick(&AFFINE_CHAINS)),
        _ => arms(dice.pick(&AFFINE_ARMS)),
    };
    let count = 1 + edges.iter().map(|&(a, b, _)| a.max(b)).max().unwrap();
    let mut figure = Figure::new(&[EMPTY; LIMIT][..count]);
    let less = dice.below(edges.len());
    for (i, &(a, b, num)) in edges.iter().enumerate() {
        figure.join(a, b, if i == less { less_than(dice, num) } else { Fraction { num, den: 1 } });
    }
    figure
}

/// Two nodes, of a fraction from 2 to where there are no walls.
fn polygon(dice: &mut Dice) -> Figure {
    let mut figure = Figure::new(&[EMPTY; 2]);
    let entry = 10_f64.powf(0.31 + 3.69 * part(dice));
    let den = dice.within(1, 400_000) as u32;
    figure.join(0, 1, Fraction { num: (entry * f64::from(den)) as u32 + 1, den }.lowest());
    figure
}

fn joined_up(chain: &[u32]) -> Vec<(usize, usize, u32)> {
    chain.iter().enumerate().map(|(i, &num)| (i, i + 1, num)).collect()
}

/// Node 0, and from there each arm outwards.
fn arms(lengths: &[usize]) -> Vec<(usize, usize, u32)> {
    let mut edges = Vec::new();
    for &length in lengths {
        for i in 0..length {
            let next = edges.len() + 1;
            edges.push((if i == 0 { 0 } else { next - 1 }, next, 3));
        }
    }
    edges
}

/// A fraction of the number, less by a part of it that is as likely to have any one size as any other.
fn less_than(dice: &mut Dice, num: u32) -> Fraction {
    let entry = f64::from(num) * (1.0 - 10_f64.powf(-0.5 - 9.5 * part(dice)));
    let den = dice.within(1_000_000, 700_000_000) as u32;
    Fraction { num: (entry * f64::from(den)) as u32, den }.lowest()
}

/// A number from 0 to 1.
fn part(dice: &mut Dice) -> f64 {
    dice.below(1 << 31) as f64 / f64::from(1_u32 << 31)
}

fn branch(figure: &mut Figure, start: usize, at: usize) {
    figure.join(start, start + 1, UNJOINED);
    figure.join(start, start + at, Fraction { num: 3, den: 1 });
}

/// A figure that differs from this one in one place, which may yet be the same figure renumbered. It has a node or more.
pub fn changed(dice: &mut Dice, figure: &Figure) -> Figure {
    loop {
        let mut other = *figure;
        let (a, b) = (dice.below(figure.count), dice.below(figure.count));
        match dice.below(7) {
            0 => other.set(a, any_node(dice)),
            1 => other.set(a, near_length(dice, figure.nodes()[a])),
            2 => other.set(a, dice.pick(&[EMPTY, ringed(1.0), SNUB_NODE])),
            3 if a != b => other.join(a, b, any_fraction(dice)),
            4 if a != b => other.join(a, b, UNJOINED),
            5 if a != b => other.join(a, b, near_fraction(dice, figure.pair(a, b))),
            6 if a != b => move_end(dice, &mut other, a, b),
            _ => {}
        }
        if other != *figure {
            return other;
        }
    }
}

/// A length next to it, or its negative, that a literal can write; other nodes stay.
fn near_length(dice: &mut Dice, place: Place) -> Place {
    let value = f64::from_bits(place.bits);
    if place.kind != RINGED {
        return place;
    }
    let w = (value.abs() * 1e14).round();
    match dice.below(3) {
        0 if lengths::has_literal(place.bits) => ringed(-value),
        1 if w < 999_999_999_999_998.0 => ringed((w + 1.0) / 1e14),
        2 if (2.0..999_999_999_999_998.0).contains(&w) => ringed((w - 1.0) / 1e14),
        _ => place,
    }
}

/// A fraction next to it. Large ones have the same quotient as doubles.
fn near_fraction(dice: &mut Dice, Fraction { num, den }: Fraction) -> Fraction {
    let (up, down) = (num.saturating_add(1), num - 1);
    let near =
        [(up, den), (down, den), (num, den + 1), (num, den - 1), (num, num - den), (up, den + 1), (down, den - 1)];
    let (num, den) = dice.pick(&near);
    if den == 0 || den >= num {
        return UNJOINED;
    }
    Fraction { num, den }.lowest()
}

/// The edge from a to b, if there is one, goes to another node.
fn move_end(dice: &mut Dice, figure: &mut Figure, a: usize, b: usize) {
    let c = dice.below(figure.count);
    if c != a && !figure.joined(a, c) {
        figure.join(a, c, figure.pair(a, b));
        figure.join(a, b, UNJOINED);
    }
}
