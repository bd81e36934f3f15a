//! `compare texts`: on each text the Rust and the port side by side, all calls, all fields, all places of the buffers; with
//! the wish for infinite lengths (ticket K6) and without it.

use std::process::ExitCode;

use miratope::{
    cox::{cd::Cd, Cox},
    diagrams::{Diagram, Fraction, LIMIT},
    families,
};

use crate::{
    dice::mix,
    expected::{self, Reading},
    figures::{Figure, ReadBack, RECORD},
    names::{self, Joined},
    port::{bits, short, Asked, Asking, Call, Port, Want, SPARE, SQUARE, WISHES},
    records,
    run::{self, Tally, Work},
    texts::Texts,
    walls,
};

// Places of the tally.
const ACCEPTED: usize = 0;
const REFUSED: usize = 10;
const DEPARTED: usize = 28;
const MIRRORS: usize = 76;
const CROWDED: usize = 77;
const INFINITE: usize = 78;
const RECORDS: usize = 79;
const FAMILIES: usize = 80;
const LONG: usize = 81;
const UNREDUCED: usize = 82;
const UNWISHED: usize = 83;
const UNWISHED_SEEN: usize = 84;
const WITH_THE_WISH: usize = 88;
const FAULT_BEFORE: usize = 100;
const WALLS: usize = 101;
const WALLS_ALONE: usize = 102;
const NO_WALLS: usize = 103;
const MIRRORS_ALONE: usize = 104;
const WALLS_INFINITE: usize = 105;
const NAMED: usize = 106;
const NAMELESS: usize = 107;

const SEEN: [&str; 4] = ["reads it", "refuses otherwise", "panics", "takes no such bytes"];

/// The refusals in which the port departs from the Rust, as docs/DIFFERENCES.md has them.
const MEANINGS: [(usize, &str); 7] = [
    (1, "more than 255 bytes"),
    (2, "a byte of 128 or more"),
    (3, "`(` at the end"),
    (4, "spaces at the end"),
    (9, "a literal outside the range"),
    (10, "a tenth node"),
    (11, "a missing reference"),
];

fn labels() -> Vec<String> {
    let mut labels: Vec<String> = (0..=LIMIT).map(|nodes| format!("accepted, {nodes} nodes")).collect();
    labels.extend((0..DEPARTED - REFUSED).map(|number| format!("refused with {number}")));
    for number in 0..(MIRRORS - DEPARTED) / 4 {
        let meaning = MEANINGS.iter().find(|row| row.0 == number).map_or("", |row| row.1);
        let row = |seen| format!("  with {number} for {meaning}, where the Rust {seen}");
        labels.extend(SEEN.map(row));
    }
    labels.push("with mirrors".into());
    labels.push("15, no mirrors".into());
    labels.push("16, an infinite length, where the Rust's circumradius is infinite or nan".into());
    labels.push("records written and read back".into());
    labels.push("families".into());
    labels.push("of the accepted texts those of 200 bytes or more".into());
    labels.push("of the accepted texts those whose edges the Rust stores in other than lowest terms".into());
    labels.push("without the wish refused with 23".into());
    labels.extend(SEEN.map(|seen| format!("  with 23 for an infinite literal, where the Rust {seen}")));
    labels.push("  with 23, and with the wish accepted".into());
    let numbers = 1..FAULT_BEFORE - WITH_THE_WISH;
    labels.extend(numbers.map(|number| format!("  with 23, and with the wish with {number}")));
    labels.push("without the wish refused as with it, for a fault before an infinite literal".into());
    labels.push("with walls".into());
    labels.push("  with walls, but no mirrors".into());
    labels.push("15, no walls".into());
    labels.push("  no walls, but mirrors".into());
    labels.push("16, an infinite length, of the generator over the walls".into());
    labels.push("with a name for each component".into());
    labels.push("21, a component that no name fits".into());
    labels
}

pub fn run(seed: u64, count: u64, threads: usize) -> ExitCode {
    let texts = Texts::new(seed);
    let all = texts.fixed() + count;
    println!("{} fixed texts, {count} by chance, of seed {seed}; all families", texts.fixed());
    // The last index is that of the families.
    run::run(all + 1, threads, &labels(), || Beside {
        port: Port::new(),
        texts: &texts,
        all,
        text: vec![],
        other: vec![],
    })
}

struct Beside<'a> {
    port: Port,
    texts: &'a Texts,
    all: u64,
    text: Vec<u8>,
    other: Vec<u8>,
}

impl Work for Beside<'_> {
    fn one(&mut self, index: u64, tally: &mut Tally) -> Result<(), String> {
        if index == self.all {
            return self.families(tally);
        }
        let mut text = std::mem::take(&mut self.text);
        self.texts.put(index, &mut text, &mut self.other);
        let result = self.text(&text, tally);
        self.text = text;
        result
    }

    fn name(&mut self, index: u64) -> String {
        if index == self.all {
            return "families".into();
        }
        self.texts.put(index, &mut self.text, &mut self.other);
        format!("\"{}\"", self.text.escape_ascii())
    }
}

impl Beside<'_> {
    fn text(&mut self, text: &[u8], tally: &mut Tally) -> Result<(), String> {
        let window = hash(text);
        let reading = expected::reading(text);
        let wishes = [WISHES[turned(window, 7) % WISHES.len()], 0];
        let Some(answer) = expected::without_wish(text) else {
            // The same is due either way.
            return self.reading(Asking { text, wishes: &wishes }, &reading, window, tally);
        };
        count_without_wish(&reading, answer, tally);
        self.refused(Asking { text, wishes: &wishes[1..] }, answer, window)?;
        self.reading(Asking { text, wishes: &wishes[..1] }, &reading, window, tally)
    }

    fn reading(&mut self, asking: Asking, reading: &Reading, window: usize, tally: &mut Tally) -> Result<(), String> {
        match reading {
            Reading::Accepted(cd) => {
                tally.count(ACCEPTED + cd.node_count());
                if asking.text.len() >= 200 {
                    tally.count(LONG);
                }
                if cd.raw_edges().iter().any(|edge| !Fraction::of(edge.weight).is_lowest()) {
                    tally.count(UNREDUCED);
                }
                self.accepted(asking, cd, window, tally)
            }
            &Reading::Refused(answer, departed) => {
                tally.count(REFUSED + answer[0]);
                if let Some(seen) = departed {
                    tally.count(DEPARTED + 4 * answer[0] + seen as usize);
                }
                self.refused(asking, answer, window)
            }
        }
    }

    /// Makes a call with each of the wishes.
    fn check<'t>(
        &mut self,
        call: fn(Asked<'t>) -> Call<'t>,
        asking: Asking<'t>,
        want: Want,
        window: usize,
    ) -> Result<(), String> {
        for asked in asking.each() {
            let done = self.port.check(call(asked), want, window);
            done.map_err(|what| format!("wish {}, {what}", asked.wish))?;
        }
        Ok(())
    }

    fn refused(&mut self, asking: Asking, answer: [usize; 4], window: usize) -> Result<(), String> {
        let want = Want { answer, out: &[] };
        self.check(Call::Read, asking, want, turned(window, 0))?;
        let asking = asking.mostly_first(window);
        self.check(Call::Matrix, asking, want, turned(window, 1))?;
        self.check(Call::Mirrors, asking, want, turned(window, 2))?;
        self.check(Call::Generator, asking, want, turned(window, 3))?;
        self.check(Call::Reflections, asking, want, turned(window, 4))?;
        self.check(Call::Walls, asking, want, turned(window, 8))?;
        self.check(Call::WallGenerator, asking, want, turned(window, 9))?;
        self.check(Call::Names, asking, want, turned(window, 10))?;
        let len = short(RECORD, turned(window, 5)).unwrap_or(RECORD + window % SPARE);
        self.no_record(asking, len, answer, window)
    }

    fn no_record(&mut self, asking: Asking, len: usize, answer: [usize; 4], window: usize) -> Result<(), String> {
        asking.each().try_for_each(|asked| records::refused(&mut self.port, asked, len, answer, window))
    }

    fn accepted(&mut self, asking: Asking, cd: &Cd, window: usize, tally: &mut Tally) -> Result<(), String> {
        let nodes = cd.node_count();
        let diagram = Diagram::of(cd);
        let answer = [0, nodes, cd.edge_count(), cd.minimal().into()];
        self.check(Call::Read, asking, Want { answer, out: &diagram.0 }, turned(window, 0))?;
        let asking = asking.mostly_first(window);

        let cox = cd.cox();
        let answer = [0, nodes, 0, 0];
        let matrix = expected::matrix(&cox);
        self.check(Call::Matrix, asking, Want { answer, out: bits(&matrix) }, turned(window, 1))?;
        let mirrors = expected::mirrors(&cox);
        match &mirrors {
            Ok(mirrors) => {
                tally.count(MIRRORS);
                let want = Want { answer, out: bits(mirrors) };
                self.check(Call::Mirrors, asking, want, turned(window, 2))?;
                self.fitting(asking, cd, &cox, window, tally)?;
            }
            Err(column) => {
                tally.count(CROWDED);
                self.crowded(asking, *column, window)?;
            }
        }
        let walls = walls::walls(&cox);
        count_walls(mirrors.is_ok(), walls.is_ok(), tally);
        self.walls(asking, cd, &walls, window, tally)?;
        let (answer, out) = names::due(&names::components(&Joined::from(cd)));
        tally.count(if answer[0] == 0 { NAMED } else { NAMELESS });
        self.check(Call::Names, asking, Want { answer, out: &out }, turned(window, 10))?;
        self.record(asking, cd, window, tally)
    }

    /// The generator and the reflections of a diagram that has mirrors.
    fn fitting(
        &mut self,
        asking: Asking,
        cd: &Cd,
        cox: &Cox<f64>,
        window: usize,
        tally: &mut Tally,
    ) -> Result<(), String> {
        let answer = [0, cd.node_count(), 0, 0];
        let generator = expected::generator(cd);
        let want = match &generator {
            Ok(generator) => Want { answer, out: bits(generator) },
            Err(node) => {
                tally.count(INFINITE);
                Want { answer: [16, *node, 0, 0], out: &[] }
            }
        };
        self.check(Call::Generator, asking, want, turned(window, 3))?;
        let reflections = expected::reflections(cox);
        self.check(Call::Reflections, asking, Want { answer, out: bits(&reflections) }, turned(window, 4))
    }

    /// The three calls that refuse a diagram without mirrors.
    fn crowded(&mut self, asking: Asking, column: usize, window: usize) -> Result<(), String> {
        let want = Want { answer: [15, column, 0, 0], out: &[] };
        self.check(Call::Mirrors, asking, want, turned(window, 2))?;
        self.check(Call::Generator, asking, want, turned(window, 3))?;
        self.check(Call::Reflections, asking, want, turned(window, 4))
    }

    /// The walls (ticket K7) and the generator over them.
    fn walls(
        &mut self,
        asking: Asking,
        cd: &Cd,
        walls: &Result<[f64; SQUARE], usize>,
        window: usize,
        tally: &mut Tally,
    ) -> Result<(), String> {
        let answer = [0, cd.node_count(), 0, 0];
        let refused = |number, field| Want { answer: [number, field, 0, 0], out: &[] };
        let walls = match walls {
            Ok(walls) => walls,
            &Err(column) => {
                self.check(Call::Walls, asking, refused(15, column), turned(window, 8))?;
                return self.check(Call::WallGenerator, asking, refused(15, column), turned(window, 9));
            }
        };
        self.check(Call::Walls, asking, Want { answer, out: bits(walls) }, turned(window, 8))?;
        let generator = walls::generator(cd, walls);
        let want = match &generator {
            Ok(generator) => Want { answer, out: bits(generator) },
            &Err(node) => {
                tally.count(WALLS_INFINITE);
                refused(16, node)
            }
        };
        self.check(Call::WallGenerator, asking, want, turned(window, 9))
    }

    /// Of a share of the texts also the record: many alike nodes take the model of this program long.
    fn record(&mut self, asking: Asking, cd: &Cd, window: usize, tally: &mut Tally) -> Result<(), String> {
        const ONE_IN: [usize; LIMIT + 1] = [1, 1, 1, 1, 1, 1, 1, 2, 16, 128];
        let window = turned(window, 6);
        if window >> 20 & (ONE_IN[cd.node_count()] - 1) != 0 {
            return Ok(());
        }
        tally.count(RECORDS);
        let figure = Figure::of(cd);
        let (bytes, numbering) = records::written(&mut self.port, asking, &figure, window)?;
        records::read_as(&mut self.port, &bytes, &ReadBack::Record(figure.renumbered(&numbering)), window)?;
        match short(RECORD, window) {
            Some(len) => self.no_record(asking, len, [12, 0, 0, 0], window),
            None => Ok(()),
        }
    }

    /// Every letter and small size, and sizes beyond all.
    fn families(&mut self, tally: &mut Tally) -> Result<(), String> {
        for letter in 0..=255 {
            for size in (0..=12).chain([255, 256, 1 << 32, (1 << 32) + 3, usize::MAX - 1, usize::MAX]) {
                tally.count(FAMILIES);
                let what = self.family(letter, size, turned(size, letter.into()));
                what.map_err(|what| format!("letter {letter}, size {size}: {what}"))?;
            }
        }
        Ok(())
    }

    fn family(&mut self, letter: u8, size: usize, window: usize) -> Result<(), String> {
        // "Least sizes A 1, B 2, H 2, D 3, E 4; greatest 9."
        let least = [(b'A', 1), (b'B', 2), (b'D', 3), (b'E', 4), (b'H', 2)];
        let known = least.iter().any(|&(known, least)| known == letter && (least..=LIMIT).contains(&size));
        let calls = [Call::FamilyMatrix, Call::FamilyMirrors, Call::FamilyWalls].map(|call| call(letter, size));
        if !known {
            // Where the Rust is asked, it panics, or gives a family of more than nine nodes.
            assert!(size > LIMIT || families::family(letter, size).is_none());
            let want = Want { answer: [17, 0, 0, 0], out: &[] };
            return calls.into_iter().try_for_each(|call| self.port.check(call, want, window));
        }
        let cox = families::family(letter, size).unwrap();
        let mut matrix = [0.0; SQUARE];
        // "past the size it goes on as that of a longer family"
        expected::put_entries(&mut matrix, &families::family(letter, LIMIT).unwrap());
        expected::put_entries(&mut matrix, &cox);
        self.square(calls[0], size, Ok(matrix), window)?;
        self.square(calls[1], size, expected::mirrors(&cox), window)?;
        self.square(calls[2], size, walls::walls(&cox), window)
    }

    /// A call about a family, which writes a matrix, mirrors or walls, or refuses with 15.
    fn square(
        &mut self,
        call: Call,
        size: usize,
        due: Result<[f64; SQUARE], usize>,
        window: usize,
    ) -> Result<(), String> {
        match due {
            Ok(square) => self.port.check(call, Want { answer: [0, size, 0, 0], out: bits(&square) }, window),
            Err(column) => self.port.check(call, Want { answer: [15, column, 0, 0], out: &[] }, window),
        }
    }
}

/// Counts a diagram by whether it has mirrors and walls.
fn count_walls(mirrors: bool, walls: bool, tally: &mut Tally) {
    tally.count(if walls { WALLS } else { NO_WALLS });
    match (mirrors, walls) {
        (true, false) => tally.count(MIRRORS_ALONE),
        (false, true) => tally.count(WALLS_ALONE),
        _ => {}
    }
}

/// Counts a text that holds an infinite literal, by what is due with the wish and without it.
fn count_without_wish(reading: &Reading, answer: [usize; 4], tally: &mut Tally) {
    if answer[0] == 23 {
        tally.count(UNWISHED);
        tally.count(UNWISHED_SEEN + reading.seen() as usize);
        return tally.count(WITH_THE_WISH + reading.number());
    }
    assert!(
        matches!(reading, Reading::Refused(with, _) if *with == answer),
        "a fault before the literal is due either way"
    );
    tally.count(FAULT_BEFORE);
}

/// The window of a text's pattern.
fn hash(text: &[u8]) -> usize {
    let stirred =
        text.iter().fold(text.len() as u64, |word, &byte| (word ^ u64::from(byte)).wrapping_mul(0x0000_0100_0000_01b3));
    mix(stirred) as usize
}

/// Another window for each call, so that not all of a text's calls get short buffers.
fn turned(window: usize, call: usize) -> usize {
    mix((window as u64).wrapping_add(call as u64)) as usize
}
