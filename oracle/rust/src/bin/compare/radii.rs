//! `compare radii`: how far the circumradii of one figure's spellings lie apart, those of ticket K7's generator over the walls
//! and those of the Rust's, both as the library computes them. It measures and tests nothing but that calls behave.
//!
//! Of eight figures five are products of finite groups of up to nine nodes (`chance::spherical`, few of which are infinite), two
//! are next to infinite groups (`chance::crowded`), and one is any of up to five nodes; each has finite lengths by chance
//! (`chance::finite_node`). Each is spelled 24 times: its nodes renumbered by chance, each spelling typed in its own way. How
//! crowded a figure is tells the smallest diagonal entry of its walls in all spellings: 1 where all walls are at right angles,
//! and not below the root of 1e-7.

use std::{process::ExitCode, sync::Mutex};

use miratope::diagrams::LIMIT;

use crate::{
    chance,
    dice::Dice,
    figures::Figure,
    port::{Asked, Call, Port},
    run::{self, Tally, Work},
    spelling::{self, Looped, Spelling},
};

const SPELLINGS: usize = 24;

/// Relative differences above this are counted.
const NEAR: f64 = 1e-9;

// Places of the tally.
const NODES: usize = 0;
const WALLS: usize = 10;
const RUST: usize = 13;
const WALLS_FAR: usize = 16;
const RUST_FAR: usize = 17;
const TOO_LONG: usize = 18;
const CLASS: usize = 19;

// What `WALLS` and `RUST` are followed by.
const ALL: usize = 0;
const NONE: usize = 1;
const SOME: usize = 2;

/// Figures are told apart by the smallest diagonal entry of their walls: the least that each class has.
const CLASSES: [f64; 4] = [0.1, 0.01, 0.001, 0.0];

fn labels() -> Vec<String> {
    let mut labels: Vec<String> = (0..=LIMIT).map(|nodes| format!("figures of {nodes} nodes")).collect();
    for what in ["walls", "mirrors"] {
        labels.push(format!("all spellings have {what}"));
        labels.push(format!("no spelling has {what}"));
        labels.push(format!("some spellings have {what}, some are refused with 15"));
    }
    labels.push(format!("with walls, and radii more than {NEAR:e} apart"));
    labels.push(format!("with mirrors, and the Rust's radii more than {NEAR:e} apart"));
    labels.push("figures too long to write".into());
    labels.extend((0..CLASSES.len()).map(|class| format!("with walls, {}", class_name(class))));
    labels
}

fn class_name(class: usize) -> String {
    let least = CLASSES[class];
    match class.checked_sub(1) {
        None => format!("all diagonal entries at least {least}"),
        Some(before) => format!("the smallest diagonal entry from {least} to {}", CLASSES[before]),
    }
}

pub fn run(seed: u64, count: u64, threads: usize) -> ExitCode {
    println!(
        "{count} figures by chance, of seed {seed}, each in {SPELLINGS} spellings; a call that misbehaves differs"
    );
    let found = Mutex::new(Found::default());
    let code = run::run(count, threads, &labels(), || Radii { port: Port::new(), seed, found: &found });
    found.into_inner().unwrap().print();
    code
}

/// A spelling: its text, and its radius or the column of 15.
type Spelled = (String, Result<f64, usize>);

/// The two spellings of a figure whose radii lie furthest apart.
#[derive(Clone, Default)]
struct Apart {
    relative: f64,
    units: u64,
    index: u64,
    texts: [(String, f64); 2],
}

impl Apart {
    /// Of spellings that all have radii.
    fn of(spelled: &[Spelled], index: u64) -> Self {
        let mut sorted: Vec<_> =
            spelled.iter().map(|(text, radius)| (text.clone(), *radius.as_ref().unwrap())).collect();
        sorted.sort_by(|(_, one), (_, other)| one.total_cmp(other));
        let (least, greatest) = (sorted[0].clone(), sorted.pop().unwrap());
        let relative = if greatest.1 == 0.0 { 0.0 } else { (greatest.1 - least.1) / greatest.1 };
        // Doubles that are not negative have the order of their bits.
        Self { relative, units: greatest.1.to_bits() - least.1.to_bits(), index, texts: [least, greatest] }
    }

    /// Keeps the further one, of two alike the one of the lower index: the order of the threads makes no difference.
    fn keep(&mut self, other: Self) {
        let further = other.relative > self.relative || other.relative == self.relative && other.index < self.index;
        if !other.texts[0].0.is_empty() && (self.texts[0].0.is_empty() || further) {
            *self = other;
        }
    }

    fn print(&self, what: &str) {
        if self.texts[0].0.is_empty() {
            return println!("{what}: none");
        }
        let Self { relative, units, index, .. } = self;
        println!("{what}: radii up to {relative:.3e} apart, {units} units in the last place, in figure {index}:");
        for (text, radius) in &self.texts {
            println!("    {radius:?} of \"{text}\"");
        }
    }
}

/// What the spellings of one figure came to.
struct Measured {
    walls: Vec<Spelled>,
    rust: Vec<Spelled>,
    /// The smallest diagonal entry of the walls in all spellings that have them; and the greatest of the spellings' smallest.
    smallest: f64,
    roomiest: f64,
}

/// What all figures so far came to.
#[derive(Default)]
struct Found {
    walls: [Apart; CLASSES.len()],
    rust: Apart,
    /// The greatest relative difference times the square of the smallest diagonal entry.
    times_square: f64,
    mixed: Vec<(u64, String)>,
    /// The roomiest of the mixed.
    mixed_roomiest: f64,
}

impl Found {
    fn add(&mut self, index: u64, measured: &Measured, tally: &mut Tally) {
        let kind = kind(&measured.walls);
        tally.count(WALLS + kind);
        if kind == SOME {
            self.mixed.push((index, mixed(&measured.walls)));
            self.mixed_roomiest = self.mixed_roomiest.max(measured.roomiest);
        }
        if kind == ALL {
            let apart = Apart::of(&measured.walls, index);
            let class = CLASSES.iter().position(|&least| measured.smallest >= least).unwrap();
            tally.count(CLASS + class);
            if apart.relative > NEAR {
                tally.count(WALLS_FAR);
            }
            self.times_square = self.times_square.max(apart.relative * measured.smallest.powi(2));
            self.walls[class].keep(apart);
        }
        let kind = self::kind(&measured.rust);
        tally.count(RUST + kind);
        if kind == ALL {
            let apart = Apart::of(&measured.rust, index);
            if apart.relative > NEAR {
                tally.count(RUST_FAR);
            }
            self.rust.keep(apart);
        }
    }

    fn print(mut self) {
        let mut all = Apart::default();
        for (class, apart) in self.walls.iter().enumerate() {
            apart.print(&format!("walls, {}", class_name(class)));
            all.keep(apart.clone());
        }
        all.print("walls, all figures");
        let times = self.times_square / f64::EPSILON;
        println!("walls, all figures: at most {times:.2} x 2^-52 / (smallest diagonal entry)^2");
        self.rust.print("the Rust's generator, all figures");
        println!("walls in some spellings: in each a diagonal entry of {:.3e} or less", self.mixed_roomiest);
        self.mixed.sort();
        for (index, what) in self.mixed.iter().take(20) {
            println!("figure {index}: {what}");
        }
    }
}

/// Whether all spellings have radii, none, or some.
fn kind(spelled: &[Spelled]) -> usize {
    match spelled.iter().filter(|(_, radius)| radius.is_ok()).count() {
        0 => NONE,
        count if count == spelled.len() => ALL,
        _ => SOME,
    }
}

/// How many spellings have radii, the shortest that has, and the shortest that has not.
fn mixed(spelled: &[Spelled]) -> String {
    let (mut fine, mut none) = (Vec::new(), Vec::new());
    for (text, radius) in spelled {
        match radius {
            Ok(radius) => fine.push((text.len(), text, radius.to_string())),
            Err(column) => none.push((text.len(), text, column.to_string())),
        }
    }
    let (count, all) = (fine.len(), spelled.len());
    let ((_, fine, radius), (_, none, column)) = (fine.into_iter().min().unwrap(), none.into_iter().min().unwrap());
    format!("{count} of {all} spellings have walls, \"{fine}\" the radius {radius}; \"{none}\" is 15 {column}")
}

struct Radii<'a> {
    port: Port,
    seed: u64,
    found: &'a Mutex<Found>,
}

impl Work for Radii<'_> {
    fn one(&mut self, index: u64, tally: &mut Tally) -> Result<(), String> {
        let dice = &mut Dice::new(self.seed, index);
        let figure = figure(dice);
        let measured = self.measured(dice, &figure)?;
        if measured.walls.is_empty() {
            tally.count(TOO_LONG);
            return Ok(());
        }
        tally.count(NODES + figure.count);
        self.found.lock().unwrap().add(index, &measured, tally);
        Ok(())
    }

    fn name(&mut self, index: u64) -> String {
        format!("figure {index}")
    }
}

impl Radii<'_> {
    fn measured(&mut self, dice: &mut Dice, figure: &Figure) -> Result<Measured, String> {
        let mut measured = Measured { walls: vec![], rust: vec![], smallest: 1.0, roomiest: 0.0 };
        for _ in 0..SPELLINGS {
            let seldom = dice.pick(&[4, 10, 40, 1000]);
            let spelling = spelling::short_spelling(dice, figure, seldom, Looped::Seldom);
            let Some(Spelling { text, .. }) = spelling else { continue };
            let (name, window) = (text.escape_ascii().to_string(), dice.next() as usize);
            let asked = Asked { text: &text, wish: 0 };
            let told = |what: String| format!("\"{name}\": {what}");
            let square = self.port.doubles(Call::Walls(asked), figure.count, window).map_err(told)?;
            let walls = self.radius(Call::WallGenerator(asked), figure.count, window).map_err(told)?;
            let rust = self.radius(Call::Generator(asked), figure.count, window).map_err(told)?;
            if square.as_ref().err() != walls.as_ref().err() {
                return Err(told(format!("15 of the walls {:?}, of their generator {:?}", square.err(), walls.err())));
            }
            if let Ok(square) = square {
                let smallest = square.into_iter().step_by(LIMIT + 1).take(figure.count).fold(1.0, f64::min);
                measured.smallest = measured.smallest.min(smallest);
                measured.roomiest = measured.roomiest.max(smallest);
            }
            measured.walls.push((name.clone(), walls));
            measured.rust.push((name, rust));
        }
        Ok(measured)
    }

    /// The circumradius that a generator's call wrote, or the column of 15.
    fn radius(&mut self, call: Call, nodes: usize, window: usize) -> Result<Result<f64, usize>, String> {
        let radius = self.port.doubles(call, nodes, window)?.map(|doubles| doubles[LIMIT]);
        match radius {
            Ok(radius) if !radius.is_finite() || radius.is_sign_negative() => Err(format!("the radius {radius}")),
            _ => Ok(radius),
        }
    }
}

fn figure(dice: &mut Dice) -> Figure {
    let most = dice.within(1, LIMIT);
    let mut figure = match dice.below(8) {
        0..=4 => chance::spherical(dice, most),
        5 | 6 => chance::crowded(dice),
        _ => chance::any_figure(dice, most.min(5)),
    };
    for node in 0..figure.count {
        figure.set(node, chance::finite_node(dice));
    }
    figure
}
