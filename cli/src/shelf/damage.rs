//! What is said of a file that is no shelf: where it is wrong, and what stands there.

use std::{cmp::Ordering, path::Path};

use lexicon::{CdError, Record};

use crate::{refusals::advice, spelling::line_of};

/// Lines that tell why the library refuses a file.
pub fn told(path: &Path, bytes: &[u8], refusal: &CdError) -> String {
    let path = path.display();
    let what = match *refusal {
        CdError::ShelfLength => length(bytes.len()),
        CdError::ShelfPlace { place } => stands(bytes, place),
        ref other => other.to_string(),
    };
    let number = refusal.number();
    format!("{path}: {what}\n  refusal {number}. {}\n", advice(refusal))
}

fn length(length: usize) -> String {
    let [whole, rest] = [length / Record::LEN, length % Record::LEN];
    format!(
        "its length, {length} bytes, is no multiple of {0}\n  \
         {whole} whole places and {rest} bytes: a shelf that was cut, or no shelf",
        Record::LEN
    )
}

/// What stands at a place that the library refuses, and before it.
fn stands(bytes: &[u8], place: usize) -> String {
    let [before, here] = [place.checked_sub(1), Some(place)].map(|place| {
        let from = place? * Record::LEN;
        bytes.get(from..from + Record::LEN)
    });
    let here = here.unwrap_or_default();
    let record = match Record::from_bytes(here) {
        Ok(record) => record,
        Err(e) => return unreadable(here, place, &e),
    };
    let Some(before) = before.and_then(|bytes| Record::from_bytes(bytes).ok()) else {
        return CdError::ShelfPlace { place }.to_string();
    };
    let how = match record.cmp(&before) {
        Ordering::Equal => "equal to",
        _ => "less than",
    };
    format!(
        "place {place} is {how} the one before, not greater\n  place {}: {}\n  place {place}: {}",
        place - 1,
        line_of(&before),
        line_of(&record)
    )
}

fn unreadable(bytes: &[u8], place: usize, refusal: &CdError) -> String {
    let start: Vec<String> = bytes
        .iter()
        .take(10)
        .map(|byte| format!("{byte:02x}"))
        .collect();
    format!(
        "place {place} has no record\n  byte {} of the file and on: {} ...\n  refusal {}: {refusal}",
        place * Record::LEN,
        start.join(" "),
        refusal.number()
    )
}
