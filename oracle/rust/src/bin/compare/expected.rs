//! What the port must answer to a text: what the Rust answers, and where that has no answer or another one
//! (docs/DIFFERENCES.md), what document 01 and ticket K6 say.

use std::ops::Range;

use miratope::{
    cox::{
        cd::{Cd, CdResult},
        Cox,
    },
    diagrams::LIMIT,
    families, limits, lines, put_matrix,
};

use crate::port::{GENERATOR, REFLECTIONS, SQUARE};

/// "Spaces are bytes 9 to 13 and 32."
pub const SPACES: [char; 6] = ['\t', '\n', '\x0b', '\x0c', '\r', ' '];

/// What the Rust made of a text to which the port answers otherwise; beside.rs labels them in this order.
#[derive(Clone, Copy)]
pub enum Seen {
    Read,
    Refused,
    Panicked,
    /// The Rust takes no bytes but UTF-8.
    NotAsked,
}

pub enum Reading {
    Accepted(Cd),
    /// Refused with the answer that is due; `Some` where the port departs from the Rust.
    Refused([usize; 4], Option<Seen>),
}

impl Reading {
    /// The number of the refusal, 0 if there is none.
    pub fn number(&self) -> usize {
        match self {
            Self::Accepted(_) => 0,
            Self::Refused(answer, _) => answer[0],
        }
    }

    /// What the Rust made of the text.
    pub fn seen(&self) -> Seen {
        match self {
            Self::Accepted(_) => Seen::Read,
            Self::Refused(_, departed) => departed.unwrap_or(Seen::Refused),
        }
    }
}

/// What is due with the wish: the Rust always takes infinite lengths.
pub fn reading(bytes: &[u8]) -> Reading {
    if let Some(answer) = unreadable(bytes) {
        return Reading::Refused(answer, Some(seen(bytes)));
    }
    let text = std::str::from_utf8(bytes).unwrap();
    let result = lines::parse(text);
    if let Some([number, at]) = limits::beyond(lines::faultless(text, &result)) {
        return Reading::Refused([number, at, 0, 0], Some(saw(&result)));
    }
    match result {
        Some(Ok(cd)) => Reading::Accepted(cd),
        Some(Err(e)) => Reading::Refused(e.answer(), None),
        None => Reading::Refused(unanswered(text), Some(Seen::Panicked)),
    }
}

/// Refusals 1 and 2, which come before all others.
fn unreadable(bytes: &[u8]) -> Option<[usize; 4]> {
    if bytes.len() > 255 {
        return Some([1, 255, 0, 0]);
    }
    bytes.iter().position(|&byte| byte >= 128).map(|at| [2, at, 0, 0])
}

/// What is due without the wish; `None` if the text holds no infinite literal, and the same is due as with it. Ticket K6: "It
/// refuses an infinite literal read without the wish (23, its last byte), where nan gives 6". So the text is read with `nan`
/// for the first infinite word: what is refused before that is due, and its 6 there stands for 23.
pub fn without_wish(bytes: &[u8]) -> Option<[usize; 4]> {
    let word = infinite_word(bytes)?;
    if let Some(answer) = unreadable(bytes) {
        return Some(answer);
    }
    let nan = [&bytes[..word.start], b"nan", &bytes[word.end..]].concat();
    match reading(&nan) {
        Reading::Refused([6, at, 0, 0], None) if at == word.start + 2 => Some([23, word.end - 1, 0, 0]),
        Reading::Refused(answer, _) => Some(answer),
        Reading::Accepted(_) => panic!("a text that holds nan, and is read"),
    }
}

/// Where the word of the first infinite literal stands: a literal runs from a `(` to the next `)`.
fn infinite_word(bytes: &[u8]) -> Option<Range<usize>> {
    let next = |from: usize, byte| bytes[from..].iter().position(|&other| other == byte).map(|at| from + at);
    let mut from = 0;
    loop {
        let start = next(from, b'(')? + 1;
        let end = next(start, b')')?;
        let literal = &bytes[start..end];
        let word = literal.strip_prefix(b"+").or(literal.strip_prefix(b"-")).unwrap_or(literal);
        if word.eq_ignore_ascii_case(b"inf") || word.eq_ignore_ascii_case(b"infinity") {
            return Some(end - word.len()..end);
        }
        from = end + 1;
    }
}

fn seen(bytes: &[u8]) -> Seen {
    std::str::from_utf8(bytes).map_or(Seen::NotAsked, |text| saw(&lines::parse(text)))
}

fn saw(result: &Option<CdResult<Cd>>) -> Seen {
    match result {
        Some(Ok(_)) => Seen::Read,
        Some(Err(_)) => Seen::Refused,
        None => Seen::Panicked,
    }
}

/// Where the Rust panics: "3, `(` without `)` (length). 4, the text ends .. after trailing spaces (length)"; then "by queue:
/// 11, a missing reference".
fn unanswered(text: &str) -> [usize; 4] {
    if text.ends_with('(') {
        return [3, text.len(), 0, 0];
    }
    if text.ends_with(SPACES) {
        return [4, text.len(), 0, 0];
    }
    [11, limits::missing(text).expect("a panic of the Rust that document 01 has no refusal for"), 0, 0]
}

/// The Coxeter matrix; past the last node it goes on as that of nodes that nothing joins.
pub fn matrix(cox: &Cox<f64>) -> [f64; SQUARE] {
    let mut out = [2.0; SQUARE];
    for i in 0..LIMIT {
        out[LIMIT * i + i] = 1.0;
    }
    put_entries(&mut out, cox);
    out
}

/// The entries of a matrix over those that are there.
pub fn put_entries(out: &mut [f64; SQUARE], cox: &Cox<f64>) {
    for column in 0..cox.dim() {
        for row in 0..cox.dim() {
            out[LIMIT * column + row] = cox[(row, column)];
        }
    }
}

/// The mirrors, zeros past the last node; or the column of refusal 15.
pub fn mirrors(cox: &Cox<f64>) -> Result<[f64; SQUARE], usize> {
    let mut out = [0.0; SQUARE];
    match cox.normals() {
        Some(normals) => put_matrix(&mut out, cox.dim(), &normals),
        None => return Err(families::column_without_mirrors(cox).unwrap()),
    }
    Ok(out)
}

/// The generator of a diagram that has mirrors, zeros past the last node, and its circumradius; or the node of refusal 16.
pub fn generator(cd: &Cd) -> Result<[f64; GENERATOR], usize> {
    let point = cd.generator().expect("mirrors and no generator");
    let radius = point.norm(); // as `Cd::circumradius`, which would make the generator anew
    let infinite = cd.node_iter().position(|node| node.value().is_infinite());
    assert_eq!(infinite.is_none(), radius.is_finite(), "16 stands for the Rust's infinities and nan");
    if let Some(node) = infinite {
        return Err(node);
    }
    let mut out = [0.0; GENERATOR];
    out[..cd.dim()].copy_from_slice(point.as_slice());
    out[GENERATOR - 1] = radius;
    Ok(out)
}

/// The reflections of a diagram that has mirrors. Past the last node a reflection goes on with unit columns, and past the
/// last reflection there are zeros (include/lexicon.h).
pub fn reflections(cox: &Cox<f64>) -> [f64; REFLECTIONS] {
    let group = cox.gen_iter().expect("mirrors and no reflections");
    let mut out = [0.0; REFLECTIONS];
    for (reflection, out) in group.gens.iter().zip(out.chunks_mut(SQUARE)) {
        for i in group.dim..LIMIT {
            out[LIMIT * i + i] = 1.0;
        }
        put_matrix(out, group.dim, reflection);
    }
    out
}
