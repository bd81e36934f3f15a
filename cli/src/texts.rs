//! Texts of the command line, handed to the library byte by byte as they were typed.

use std::ffi::OsStr;

use clap::ArgMatches;
use lexicon::{Cd, CdResult};

use crate::refusals::complain;

/// Reads a text, with infinite lengths if they are wished for.
fn read(text: &[u8], infinite: bool) -> CdResult<Cd> {
    if infinite {
        Cd::parse_with_infinite(text)
    } else {
        Cd::parse_bytes(text)
    }
}

/// The text of this name, which the command line must have; or nothing after its refusal was told.
pub fn accepted(arguments: &ArgMatches, name: &str) -> Option<Cd> {
    let text = all_of(arguments, name).next().unwrap_or_default();
    let cd = read(text, infinite(arguments));
    cd.map_err(|refusal| complain(name, text, &refusal)).ok()
}

/// The bytes of all texts of this name.
pub fn all_of<'a>(arguments: &'a ArgMatches, name: &str) -> impl Iterator<Item = &'a [u8]> {
    let texts = arguments.get_many::<std::ffi::OsString>(name);
    texts
        .unwrap_or_default()
        .map(|text| OsStr::as_encoded_bytes(text))
}

/// Whether infinite lengths are wished for.
pub fn infinite(arguments: &ArgMatches) -> bool {
    arguments.get_flag("infinite")
}
