//! `compare names`: ticket K4's names at scale. Diagrams by chance have families for components, or what is one step off:
//! their texts, with renumbered nodes of any sort, loops and fractions that are not in lowest terms, must be answered as names.rs
//! says of the diagram that the Rust reads. Where nothing was changed, that must have the names that the diagram was made of.

use std::process::ExitCode;

use miratope::{
    cox::cd::Cd,
    diagrams::{Fraction, EMPTY, LIMIT},
};

use crate::{
    chance,
    dice::Dice,
    expected::{self, Reading},
    figures::{Figure, UNJOINED},
    names::{self, Component, Joined, Name},
    port::{Asked, Call, Port, Want, WISHES},
    run::{self, Tally, Work},
    spelling::{self, Looped, Spelling},
};

/// The least and the greatest number that follows a letter; of I2 there are more.
const LETTERS: [(u8, u64, u64); 6] =
    [(b'A', 1, 9), (b'B', 2, 9), (b'D', 4, 9), (b'E', 6, 8), (b'F', 4, 4), (b'H', 3, 4)];

// Places of the tally: first a letter's names.
const OF_LETTER: usize = 10;
const DIHEDRAL: usize = 60;
const LARGE: usize = 61;
const NAMED: usize = 62;
const REFUSED: usize = 72;
const LATER: usize = 82;
const NAMELESS: usize = 83;
const MADE: usize = 88;
const STEPS: usize = 89;
const LOOPS: usize = 92;
const UNREDUCED: usize = 93;
const TOO_LONG: usize = 94;

/// Of `Nameless`, in its order.
const WHY: [&str; 5] =
    ["a cycle", "a fraction that is no whole number", "two branches or more", "its arms", "its chain of edges"];

/// From this p on mirrors are refused with 15.
const LARGE_P: u64 = 9935;

fn labels() -> Vec<String> {
    let mut labels: Vec<String> = (0..DIHEDRAL)
        .map(|place| format!("components named {}{}", char::from(LETTERS[place / OF_LETTER].0), place % OF_LETTER))
        .collect();
    labels.push("components named I2(p)".into());
    labels.push("  of them with a p whose mirrors are refused with 15".into());
    labels.extend((0..=LIMIT).map(|count| format!("diagrams of {count} components, all named")));
    labels.extend((0..=LIMIT).map(|rank| format!("diagrams refused with 21 for component {rank}, counted from 0")));
    labels.push("  of them with a later component that no name fits either".into());
    labels.extend(WHY.map(|why| format!("components that no name fits for {why}")));
    labels.push("diagrams as they were made, of families alone".into());
    labels.extend(["one step", "two steps", "three steps"].map(|steps| format!("diagrams {steps} off")));
    labels.push("diagrams with loops".into());
    labels.push("diagrams with fractions that are not in lowest terms".into());
    labels.push("diagrams too long to write".into());
    labels
}

pub fn run(seed: u64, count: u64, threads: usize) -> ExitCode {
    println!("{count} diagrams by chance, of seed {seed}");
    run::run(count, threads, &labels(), || Naming { port: Port::new(), seed })
}

struct Naming {
    port: Port,
    seed: u64,
}

impl Work for Naming {
    fn one(&mut self, index: u64, tally: &mut Tally) -> Result<(), String> {
        let dice = &mut Dice::new(self.seed, index);
        let (mut figure, mut made) = families(dice);
        let steps = dice.pick(&[0, 0, 0, 1, 1, 1, 2, 3]);
        for _ in 0..steps {
            step(dice, &mut figure);
        }
        let seldom = dice.pick(&[4, 10, 40, 1000]);
        let Some(Spelling { text, .. }) = spelling::short_spelling(dice, &figure, seldom, Looped::Seldom) else {
            tally.count(TOO_LONG);
            return Ok(());
        };
        let told = |what: String| format!("\"{}\": {what}", text.escape_ascii());
        let Reading::Accepted(cd) = expected::reading(&text) else { return Err(told("the Rust refuses it".into())) };
        let components = names::components(&Joined::from(&cd));
        tally.count(if steps == 0 { MADE } else { STEPS + steps - 1 });
        count(&cd, &components, tally);
        if steps == 0 {
            made.sort();
            as_made(&components, &made).map_err(told)?;
        }
        let (answer, out) = names::due(&components);
        let wish = if figure.is_infinite() || dice.one_in(2) { dice.pick(&WISHES) } else { 0 };
        let call = Call::Names(Asked { text: &text, wish });
        self.port.check(call, Want { answer, out: &out }, dice.next() as usize).map_err(told)
    }

    fn name(&mut self, index: u64) -> String {
        format!("diagram {index}")
    }
}

/// Whether the components have the names that the diagram was made of, which are sorted.
fn as_made(components: &[Component], made: &[Name]) -> Result<(), String> {
    let mut found: Vec<_> = components.iter().filter_map(|(_, name)| name.ok()).collect();
    found.sort();
    if found == made {
        return Ok(());
    }
    Err(format!("made of {made:?}, and named {found:?} by this program"))
}

fn count(cd: &Cd, components: &[Component], tally: &mut Tally) {
    let nameless: Vec<_> = (0..components.len()).filter(|&rank| components[rank].1.is_err()).collect();
    tally.count(nameless.first().map_or(NAMED + components.len(), |rank| REFUSED + rank));
    if nameless.len() > 1 {
        tally.count(LATER);
    }
    for (_, name) in components {
        match *name {
            Ok(Name(b'I', p)) => {
                tally.count(DIHEDRAL);
                if p >= LARGE_P {
                    tally.count(LARGE);
                }
            }
            Ok(Name(letter, number)) => {
                let row = LETTERS.iter().position(|of| of.0 == letter).unwrap();
                tally.count(row * OF_LETTER + number as usize);
            }
            Err(why) => tally.count(NAMELESS + why as usize),
        }
    }
    if cd.raw_edges().iter().any(|edge| edge.source() == edge.target()) {
        tally.count(LOOPS);
    }
    if cd.raw_edges().iter().any(|edge| !Fraction::of(edge.weight).is_lowest()) {
        tally.count(UNREDUCED);
    }
}

/// One to nine families on up to nine nodes of any sort, few large ones or many small ones, and their names.
fn families(dice: &mut Dice) -> (Figure, Vec<Name>) {
    let (mut figure, mut made) = (Figure::new(&[]), Vec::new());
    let most = dice.pick(&[2, 3, 4, 4, 5, 6, 7, 8, 9, 9, 9]);
    let (largest, seldom) = dice.pick(&[(1, 20), (2, 20), (2, 20), (4, 8), (9, 3), (9, 3), (9, 3), (9, 3)]);
    while figure.count < most && (figure.count == 0 || !dice.one_in(seldom)) {
        let room = largest.min(most - figure.count);
        made.push(family(dice, &mut figure, room));
    }
    for node in 0..figure.count {
        figure.set(node, chance::any_node(dice));
    }
    (figure, made)
}

/// Adds a family of no more nodes than there is room for. Document 01: "A, B, H are chains of 3s, the first edge being 4 for B, 5 for H. D is A
/// with entry 0,1 made 2 and 0,2 made 3; E is A with 0,1 made 2 and 0,3 made 3".
fn family(dice: &mut Dice, figure: &mut Figure, room: usize) -> Name {
    let start = figure.count;
    let fitting: Vec<_> = LETTERS.iter().filter(|of| of.1 <= room as u64).collect();
    if room >= 2 && dice.below(fitting.len() + 1) == 0 {
        let p = dihedral(dice);
        figure.count += 2;
        figure.join(start, start + 1, of(p));
        return Name(b'I', p.into());
    }
    let &(letter, least, greatest) = dice.pick(&fitting);
    let n = dice.within(least as usize, room.min(greatest as usize));
    figure.count += n;
    for i in 1..n {
        figure.join(start + i - 1, start + i, of(3));
    }
    let mut entry = |i, j, number| figure.join(start + i, start + j, of(number));
    match letter {
        b'B' => entry(0, 1, 4),
        b'H' => entry(0, 1, 5),
        b'F' => entry(1, 2, 4),
        b'D' | b'E' => {
            entry(0, 1, 2);
            entry(0, if letter == b'D' { 2 } else { 3 }, 3);
        }
        _ => {}
    }
    Name(letter, n as u64)
}

fn of(number: u32) -> Fraction {
    Fraction { num: number, den: 1 }
}

/// A p of I2(p).
fn dihedral(dice: &mut Dice) -> u32 {
    let bits = dice.within(1, 31);
    match dice.below(4) {
        0 | 1 => dice.within(5, 9) as u32,
        2 => dice.within(10, 20_000) as u32,
        _ => u32::MAX - dice.below(1 << bits) as u32,
    }
}

/// One edge made another or none, one more, one moved, one node more, or another change in one place.
fn step(dice: &mut Dice, figure: &mut Figure) {
    let (a, b) = (dice.below(figure.count), dice.below(figure.count));
    let number = of(dice.pick(&[3, 3, 4, 4, 5, 6, 7]));
    let edges: Vec<_> = figure.joined_pairs().collect();
    match dice.below(6) {
        0 if a != b => figure.join(a, b, number),
        1 if !edges.is_empty() => {
            let (i, j) = dice.pick(&edges);
            figure.join(i, j, number);
        }
        2 if !edges.is_empty() => {
            let (i, j) = dice.pick(&edges);
            figure.join(i, j, UNJOINED);
        }
        3 | 4 if figure.count < LIMIT => {
            figure.count += 1;
            figure.set(figure.count - 1, EMPTY);
            figure.join(a, figure.count - 1, number);
        }
        _ => *figure = chance::changed(dice, figure),
    }
}
