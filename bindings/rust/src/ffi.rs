//! The calls of include/lexicon.h, and the crate's only unsafe code.
//!
//! The header asks of a caller that a pointer is aligned and has as many elements behind it as the
//! length beside it says, an answer four and a numbering nine, and that none overlap. Each function
//! below lends arrays of these lengths, its own or borrowed by it alone, beside at most one slice of
//! its caller's, so it is safe for every argument, and 12 cannot come. The calling convention stands
//! in the declarations, and the default floating-point environment is what Rust itself assumes.

use crate::{CdError, CdResult};

pub const LIMIT: usize = 9;
const ANSWER: usize = 4;
pub const RECORD: usize = 370;
pub const DIAGRAM: usize = 153;
pub const SQUARE: usize = 81;
pub const GENERATOR: usize = 10;
pub const REFLECTIONS: usize = 729;
pub const NAMES: usize = 36;

/// What a call writes, and the three numbers that it tells of it.
pub type Written<T, const N: usize> = CdResult<([T; N], [usize; ANSWER - 1])>;

type OfText<T> =
    unsafe extern "sysv64" fn(*const u8, usize, usize, *mut T, usize, *mut usize) -> usize;
type OfFamily = unsafe extern "sysv64" fn(u8, usize, *mut f64, usize, *mut usize) -> usize;

extern "sysv64" {
    fn lexicon_read(
        text: *const u8,
        text_len: usize,
        wish: usize,
        out: *mut u64,
        out_len: usize,
        answer: *mut usize,
    ) -> usize;

    fn lexicon_write_record(
        text: *const u8,
        text_len: usize,
        wish: usize,
        out: *mut u8,
        out_len: usize,
        numbering: *mut usize,
        answer: *mut usize,
    ) -> usize;

    fn lexicon_read_record(
        bytes: *const u8,
        bytes_len: usize,
        out: *mut u64,
        out_len: usize,
        answer: *mut usize,
    ) -> usize;

    fn lexicon_matrix(
        text: *const u8,
        text_len: usize,
        wish: usize,
        out: *mut f64,
        out_len: usize,
        answer: *mut usize,
    ) -> usize;

    fn lexicon_mirrors(
        text: *const u8,
        text_len: usize,
        wish: usize,
        out: *mut f64,
        out_len: usize,
        answer: *mut usize,
    ) -> usize;

    fn lexicon_walls(
        text: *const u8,
        text_len: usize,
        wish: usize,
        out: *mut f64,
        out_len: usize,
        answer: *mut usize,
    ) -> usize;

    fn lexicon_generator(
        text: *const u8,
        text_len: usize,
        wish: usize,
        out: *mut f64,
        out_len: usize,
        answer: *mut usize,
    ) -> usize;

    fn lexicon_wall_generator(
        text: *const u8,
        text_len: usize,
        wish: usize,
        out: *mut f64,
        out_len: usize,
        answer: *mut usize,
    ) -> usize;

    fn lexicon_reflections(
        text: *const u8,
        text_len: usize,
        wish: usize,
        out: *mut f64,
        out_len: usize,
        answer: *mut usize,
    ) -> usize;

    fn lexicon_names(
        text: *const u8,
        text_len: usize,
        wish: usize,
        out: *mut u64,
        out_len: usize,
        answer: *mut usize,
    ) -> usize;

    fn lexicon_family_matrix(
        letter: u8,
        size: usize,
        out: *mut f64,
        out_len: usize,
        answer: *mut usize,
    ) -> usize;

    fn lexicon_family_mirrors(
        letter: u8,
        size: usize,
        out: *mut f64,
        out_len: usize,
        answer: *mut usize,
    ) -> usize;

    fn lexicon_family_walls(
        letter: u8,
        size: usize,
        out: *mut f64,
        out_len: usize,
        answer: *mut usize,
    ) -> usize;

    fn lexicon_shelf_check(file: *const u8, file_len: usize, answer: *mut usize) -> usize;

    fn lexicon_shelf_bisect(
        file: *const u8,
        file_len: usize,
        bytes: *const u8,
        bytes_len: usize,
        answer: *mut usize,
    ) -> usize;

    fn lexicon_shelf_add(
        file: *const u8,
        file_len: usize,
        bytes: *const u8,
        bytes_len: usize,
        out: *mut u8,
        out_len: usize,
        answer: *mut usize,
    ) -> usize;

    fn lexicon_shelf_rescue(
        file: *const u8,
        file_len: usize,
        out: *mut u8,
        out_len: usize,
        marks: *mut u8,
        marks_len: usize,
        answer: *mut usize,
    ) -> usize;
}

/// Tells the nodes, the stored edges and whether the diagram is minimal. Here and below, lengths may
/// be infinite with the wish.
pub fn read(text: &[u8], wish: bool) -> Written<u64, DIAGRAM> {
    of_text(lexicon_read, text, wish)
}

/// Tells the components.
pub fn names(text: &[u8], wish: bool) -> Written<u64, NAMES> {
    of_text(lexicon_names, text, wish)
}

/// Tells the nodes, as do all the calls below.
pub fn matrix(text: &[u8], wish: bool) -> Written<f64, SQUARE> {
    of_text(lexicon_matrix, text, wish)
}

pub fn mirrors(text: &[u8], wish: bool) -> Written<f64, SQUARE> {
    of_text(lexicon_mirrors, text, wish)
}

pub fn walls(text: &[u8], wish: bool) -> Written<f64, SQUARE> {
    of_text(lexicon_walls, text, wish)
}

pub fn generator(text: &[u8], wish: bool) -> Written<f64, GENERATOR> {
    of_text(lexicon_generator, text, wish)
}

pub fn wall_generator(text: &[u8], wish: bool) -> Written<f64, GENERATOR> {
    of_text(lexicon_wall_generator, text, wish)
}

pub fn reflections(text: &[u8], wish: bool) -> Written<f64, REFLECTIONS> {
    of_text(lexicon_reflections, text, wish)
}

pub fn family_matrix(letter: u8, size: usize) -> Written<f64, SQUARE> {
    of_family(lexicon_family_matrix, letter, size)
}

pub fn family_mirrors(letter: u8, size: usize) -> Written<f64, SQUARE> {
    of_family(lexicon_family_mirrors, letter, size)
}

pub fn family_walls(letter: u8, size: usize) -> Written<f64, SQUARE> {
    of_family(lexicon_family_walls, letter, size)
}

/// Writes the record, and gives the numbering that gives it, which has a place for each node. A
/// refusal leaves what was there.
pub fn write_record(text: &[u8], wish: bool, out: &mut [u8; RECORD]) -> CdResult<Vec<usize>> {
    let mut numbering = [0; LIMIT];
    let mut answer = [0; ANSWER];
    // SAFETY: the lengths are the slice's and the arrays' own, and the header's for the numbering and
    // the answer; `out` is borrowed for this call alone, so the text does not overlap it.
    unsafe {
        lexicon_write_record(
            text.as_ptr(),
            text.len(),
            usize::from(wish),
            out.as_mut_ptr(),
            out.len(),
            numbering.as_mut_ptr(),
            answer.as_mut_ptr(),
        )
    };
    let [nodes, ..] = told(answer)?;
    Ok(numbering[..nodes].to_vec())
}

/// The diagram of a record: tells the nodes and the edges.
pub fn read_record(bytes: &[u8]) -> Written<u64, DIAGRAM> {
    let mut out = [0; DIAGRAM];
    let mut answer = [0; ANSWER];
    // SAFETY: the lengths are the slice's and the array's own, and the header's for the answer.
    unsafe {
        lexicon_read_record(
            bytes.as_ptr(),
            bytes.len(),
            out.as_mut_ptr(),
            out.len(),
            answer.as_mut_ptr(),
        )
    };
    Ok((out, told(answer)?))
}

/// How many places a shelf file has.
pub fn shelf_check(file: &[u8]) -> CdResult<usize> {
    let mut answer = [0; ANSWER];
    // SAFETY: the length is the slice's own, and the header's for the answer.
    unsafe { lexicon_shelf_check(file.as_ptr(), file.len(), answer.as_mut_ptr()) };
    let [places, ..] = told(answer)?;
    Ok(places)
}

/// The place at which bisection finds a record in any file, or at which it ends without finding it.
pub fn shelf_bisect(file: &[u8], record: &[u8; RECORD]) -> CdResult<Result<usize, usize>> {
    let record = *record; // which might lie in the file
    let mut answer = [0; ANSWER];
    // SAFETY: the lengths are the slice's and the array's own, and the header's for the answer.
    unsafe {
        lexicon_shelf_bisect(
            file.as_ptr(),
            file.len(),
            record.as_ptr(),
            record.len(),
            answer.as_mut_ptr(),
        )
    };
    let [present, place, _] = told(answer)?;
    Ok(if present == 1 { Ok(place) } else { Err(place) })
}

/// A shelf file with a record added, and the place of that record.
pub fn shelf_add(file: &[u8], record: &[u8; RECORD]) -> CdResult<(Vec<u8>, usize)> {
    let record = *record; // which might lie in the file
    let mut out = vec![0; file.len() + RECORD];
    let mut answer = [0; ANSWER];
    // SAFETY: the lengths are the slice's, the array's and the vector's own, and the header's for
    // the answer.
    unsafe {
        lexicon_shelf_add(
            file.as_ptr(),
            file.len(),
            record.as_ptr(),
            record.len(),
            out.as_mut_ptr(),
            out.len(),
            answer.as_mut_ptr(),
        )
    };
    let [place, ..] = told(answer)?;
    Ok((out, place))
}

/// The shelf file of what is kept of any file, the mark of each of its places, and the length of its
/// tail.
pub fn shelf_rescue(file: &[u8]) -> CdResult<(Vec<u8>, Vec<u8>, usize)> {
    let mut out = vec![0; file.len()];
    let mut marks = vec![0; file.len() / RECORD];
    let mut answer = [0; ANSWER];
    // SAFETY: the lengths are the slice's and the vectors' own, and the header's for the answer.
    unsafe {
        lexicon_shelf_rescue(
            file.as_ptr(),
            file.len(),
            out.as_mut_ptr(),
            out.len(),
            marks.as_mut_ptr(),
            marks.len(),
            answer.as_mut_ptr(),
        )
    };
    let [kept, tail, _] = told(answer)?;
    out.truncate(kept * RECORD);
    Ok((out, marks, tail))
}

/// `call` is one of the header's that take a text and have no numbering.
fn of_text<T: Copy + Default, const N: usize>(
    call: OfText<T>,
    text: &[u8],
    wish: bool,
) -> Written<T, N> {
    let mut out = [T::default(); N];
    let mut answer = [0; ANSWER];
    // SAFETY: the lengths are the slice's and the array's own, and the header's for the answer.
    unsafe {
        call(
            text.as_ptr(),
            text.len(),
            usize::from(wish),
            out.as_mut_ptr(),
            N,
            answer.as_mut_ptr(),
        )
    };
    Ok((out, told(answer)?))
}

/// `call` is one of the header's that take a family.
fn of_family<const N: usize>(call: OfFamily, letter: u8, size: usize) -> Written<f64, N> {
    let mut out = [0.0; N];
    let mut answer = [0; ANSWER];
    // SAFETY: the length is the array's own, and the header's for the answer.
    unsafe { call(letter, size, out.as_mut_ptr(), N, answer.as_mut_ptr()) };
    Ok((out, told(answer)?))
}

/// What stands behind the 0 of an answer, or the refusal.
fn told(answer: [usize; ANSWER]) -> CdResult<[usize; ANSWER - 1]> {
    let [number, told @ ..] = answer;
    match number {
        0 => Ok(told),
        _ => Err(CdError::from_numbers(answer)),
    }
}
