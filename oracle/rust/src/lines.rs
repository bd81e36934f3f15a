//! What the programs share: an answer for each line of standard input, and the reading of a text with document 01's limits.

use std::{
    io::{self, Read, Write},
    panic,
};

use crate::{
    cox::cd::{Cd, CdError, CdResult},
    limits,
};

/// Writes the answer to each line of standard input, `?` where there is none.
pub fn answer_each(answer: impl Fn(&[u8]) -> Option<String>) -> io::Result<()> {
    panic::set_hook(Box::new(|_| {}));

    let mut input = Vec::new();
    io::stdin().read_to_end(&mut input)?;

    let mut lines: Vec<&[u8]> = input.split(|&byte| byte == b'\n').collect();
    // What follows the last line feed is a line only if something does.
    if lines.last().is_some_and(|last| last.is_empty()) {
        lines.pop();
    }

    let mut out = io::BufWriter::new(io::stdout().lock());
    for line in lines {
        writeln!(out, "{}", answer(line).as_deref().unwrap_or("?"))?;
    }
    out.flush()
}

/// What `Cd::parse` makes of a text, `None` if it panics.
pub fn parse(text: &str) -> Option<CdResult<Cd>> {
    panic::catch_unwind(|| Cd::parse(text)).ok()
}

/// Of a text that `parse` answered so, what was read without fault, perhaps but for an unfinished node or edge at its end.
/// A panic comes at the end of the text, or later.
pub fn faultless<'a>(text: &'a str, result: &Option<CdResult<Cd>>) -> &'a str {
    match *result {
        None | Some(Ok(_) | Err(CdError::RepeatEdge { .. })) => text,
        Some(Err(
            CdError::MismatchedParenthesis { pos }
            | CdError::UnexpectedEnding { pos }
            | CdError::ParseError { pos }
            | CdError::InvalidSymbol { pos }
            | CdError::InvalidEdge { pos, .. },
        )) => &text[..pos],
    }
}

/// What `Cd::parse` makes of a text. `None` where the Rust has no answer: it panics, or the text is beyond a limit of
/// document 01.
pub fn read(bytes: &[u8]) -> Option<CdResult<Cd>> {
    if bytes.len() > 255 || !bytes.is_ascii() {
        return None;
    }
    let text = std::str::from_utf8(bytes).ok()?;
    let result = parse(text);
    if limits::beyond(faultless(text, &result)).is_some() {
        return None;
    }
    result
}

/// `no`, document 01's number and fields.
pub fn refused(e: CdError) -> String {
    let (fields, count) = e.fields();
    let fields: Vec<String> = fields[..count].iter().map(usize::to_string).collect();
    format!("no {} {}", e.number(), fields.join(" "))
}
