//! What is said of a refusal: where it is, what is wrong, and what to do about it.

use std::{
    borrow::Cow,
    io::{self, Write},
};

use lexicon::CdError;

use crate::names::name;

/// The column that is told: the library's position plus 1, or 1 where it tells none.
pub fn column(refusal: &CdError) -> usize {
    refusal.position().map_or(1, |pos| pos + 1)
}

/// What is wrong, in a few words.
pub fn what(refusal: &CdError) -> String {
    match *refusal {
        CdError::TooLong { .. } => "the text has more than 255 bytes".into(),
        CdError::NotAscii { .. } => "this byte is not ASCII".into(),
        CdError::MismatchedParenthesis { .. } => "a parenthesis is not closed".into(),
        CdError::UnexpectedEnding { .. } => "the text ends too soon".into(),
        CdError::ParseError { .. } => "what ends here is no number".into(),
        CdError::InvalidSymbol { .. } => "this symbol does not fit here".into(),
        CdError::InvalidEdge { num, den, .. } => format!("no edge has the numbers {num}/{den}"),
        CdError::RepeatEdge { a, b } => {
            format!("the nodes {} and {} are joined twice", name(a), name(b))
        }
        CdError::OutOfRange { .. } => "the length that ends here is out of range".into(),
        CdError::TooManyNodes { .. } => "this is the tenth node".into(),
        CdError::MissingNode { edge } => {
            format!(
                "edge {}, counted from 1, goes to a node that the text lacks",
                edge + 1
            )
        }
        CdError::InfiniteLength { .. } => "the length that ends here is infinite".into(),
        // Those below are no refusals of texts.
        CdError::NoName { node } => {
            format!(
                "no name of a finite group fits the component of node {}",
                name(node)
            )
        }
        ref other => other.to_string(),
    }
}

/// What to do about it.
pub fn advice(refusal: &CdError) -> &'static str {
    match refusal {
        CdError::TooLong { .. } => "Shorten the text to 255 bytes.",
        CdError::NotAscii { .. } => "Type letters, digits and signs without accents, and plain spaces.",
        CdError::MismatchedParenthesis { .. } => "Close the length with ).",
        CdError::UnexpectedEnding { .. } => {
            "Type what is missing, a node after an edge for instance, or remove the spaces at the end."
        }
        CdError::ParseError { .. } => "Type a number, such as 3 or 5/2 for an edge and (1.5) for a length.",
        CdError::InvalidSymbol { .. } => {
            "Type a node (o, x, s, another letter of a length, or a length in parentheses), an edge, or a reference such as *a; nan is no length."
        }
        CdError::InvalidEdge { .. } => {
            "An edge is a number of at least 2, or a fraction greater than 1."
        }
        CdError::RepeatEdge { .. } => "Join two nodes by one edge only.",
        CdError::OutOfRange { .. } => {
            "Type a length of at most 15 digits, with a power of ten from -22 to 22."
        }
        CdError::TooManyNodes { .. } => "A diagram has at most nine nodes.",
        CdError::MissingNode { .. } => "Let each reference name a node that the text has.",
        CdError::InfiniteLength { .. } => {
            "Type the length that is meant, or take infinite lengths with --infinite."
        }
        CdError::ShelfLength => "Take the file from a copy, or keep its whole places with `lexicon shelf rescue`: a shelf has 370 bytes a place.",
        CdError::ShelfPlace { .. } => "Take the file from a copy, make it anew with `lexicon shelf make`, or keep what can be kept with `lexicon shelf rescue`.",
        CdError::OnShelf { .. } => "Look for the article that has this figure.",
        CdError::Crowded { .. } => "Such a figure has no mirrors, or no walls, in spherical space; nothing is wrong with its text.",
        CdError::Infinite { .. } => "A figure with an infinite length has no generator.",
        CdError::NoName { .. } => "The group of such a component is infinite, or an edge is a fraction such as 5/2; nothing is wrong with its text.",
        _ => "File the figure's text again.",
    }
}

/// Reports a refusal of a text as a compiler does; `place` is its file and line,
/// each with a colon.
pub fn report(
    out: &mut impl Write,
    place: &str,
    text: &[u8],
    note: &[u8],
    refusal: &CdError,
) -> io::Result<()> {
    writeln!(out, "{place}{}: {}", column(refusal), what(refusal))?;
    let (line, caret) = excerpt(text, refusal.position());
    let line = format!("  {line}  {}", shown(note));
    writeln!(out, "{}", line.trim_end())?;
    if let Some(caret) = caret {
        writeln!(out, "  {:caret$}^", "")?;
    }
    writeln!(out, "  refusal {}. {}", refusal.number(), advice(refusal))
}

/// Reports a refusal of a text of the command line on standard error. Where that can't be written,
/// the status tells it.
pub fn complain(name: &str, text: &[u8], refusal: &CdError) {
    let _ = report(&mut io::stderr(), &format!("{name}:"), text, &[], refusal);
}

/// The most characters of a text that are shown.
const SHOWN: usize = 72;

/// The part of a text around a position that is shown, and at which of its characters the position
/// is.
fn excerpt(text: &[u8], pos: Option<usize>) -> (String, Option<usize>) {
    let before = pos.map(|pos| shown(&text[..pos.min(text.len())]));
    let all = shown(text);
    let at = before.map_or(0, |before| before.chars().count());
    let from = if at < SHOWN { 0 } else { at - SHOWN / 2 };
    let mut part: String = all.chars().skip(from).take(SHOWN).collect();
    let mut caret = pos.map(|_| at - from);
    if from > 0 {
        part.insert_str(0, "...");
        caret = caret.map(|caret| caret + 3);
    }
    if all.chars().count() > from + SHOWN {
        part.push_str("...");
    }
    (part, caret)
}

/// Bytes as they are shown: a control character as a space or a mark, so that it does nothing to a
/// terminal and carets stand where they should.
pub fn shown(bytes: &[u8]) -> Cow<'_, str> {
    match str::from_utf8(bytes) {
        Ok(text) if !text.bytes().any(|byte| byte.is_ascii_control()) => text.into(),
        _ => String::from_utf8_lossy(bytes).chars().map(mark).collect(),
    }
}

fn mark(c: char) -> char {
    match c {
        '\t' => ' ',
        c if c.is_control() => char::REPLACEMENT_CHARACTER,
        c => c,
    }
}
