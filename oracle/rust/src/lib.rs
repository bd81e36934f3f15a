//! miratope-core's `float` and `cox`, compiled unchanged from where they stand (see build.rs), with what they
//! lean on cut down to what they call.

include!(concat!(env!("OUT_DIR"), "/miratope.rs"));

pub mod diagrams;
pub mod families;
pub mod limits;
pub mod lines;

use cox::cd::{Cd, CdError};
use diagrams::{Diagram, DIAGRAM};

/// The type names of geometry.rs. The file itself leans on the rest of miratope-core.
pub mod geometry {
    pub type Point<T> = nalgebra::DVector<T>;
    pub type Vector<T> = Point<T>;
    pub type VectorSlice<'a, T> = nalgebra::DVectorSlice<'a, T>;
    pub type Matrix<T> = nalgebra::DMatrix<T>;
}

/// Of group/, what `Cox::gen_iter` makes and `Cox::group` hands on: document 01 leaves the walk out.
pub mod group {
    pub struct GenIter<T> {
        pub dim: usize,
        pub gens: Vec<T>,
    }

    impl<T> GenIter<T> {
        pub fn new(dim: usize, gens: Vec<T>) -> Self {
            Self { dim, gens }
        }
    }

    pub struct Group<I>(pub I);

    impl<I> From<I> for Group<I> {
        fn from(iter: I) -> Self {
            Self(iter)
        }
    }
}

impl CdError {
    /// Document 01's number of the refusal.
    pub fn number(self) -> u32 {
        match self {
            Self::MismatchedParenthesis { .. } => 3,
            Self::UnexpectedEnding { .. } => 4,
            Self::ParseError { .. } => 5,
            Self::InvalidSymbol { .. } => 6,
            Self::InvalidEdge { .. } => 7,
            Self::RepeatEdge { .. } => 8,
        }
    }

    /// Document 01's fields of the refusal, in its order, then zeros; and how many they are.
    pub fn fields(self) -> ([usize; 3], usize) {
        match self {
            Self::MismatchedParenthesis { pos }
            | Self::UnexpectedEnding { pos }
            | Self::ParseError { pos }
            | Self::InvalidSymbol { pos } => ([pos, 0, 0], 1),
            Self::InvalidEdge { num, den, pos } => ([num as usize, den as usize, pos], 3),
            Self::RepeatEdge { a, b } => ([a, b, 0], 2),
        }
    }

    /// Its number and fields, then zeros: the answer of include/lexicon.h.
    pub fn answer(self) -> [usize; 4] {
        let ([a, b, c], _) = self.fields();
        [self.number() as usize, a, b, c]
    }
}

/// Reads a text for a caller in C: the count of nodes, or 256 and the refusal's number.
/// Where the Rust panics, the process ends.
///
/// # Safety
/// `text` points at `len` bytes of UTF-8. (They are not tested, so that the time is that of `Cd::parse` alone.)
#[no_mangle]
pub unsafe extern "C" fn rust_parse(text: *const u8, len: usize) -> u32 {
    let text = std::slice::from_raw_parts(text, len);
    match Cd::parse(std::str::from_utf8_unchecked(text)) {
        Ok(cd) => cd.node_count() as u32,
        Err(e) => 256 + e.number(),
    }
}

/// Reads a text as include/lexicon.h's `lexicon_read` does: the same numbers in `out` and `answer`, the same one returned; but
/// num and den are those typed, so that the time is the Rust's, which does not reduce; and the wish (ticket K6) is left aside,
/// since the Rust always takes infinite lengths.
///
/// # Safety
/// As for `rust_parse`; `out` points at `room` numbers, 153 or more, `answer` at four, and the text has at most nine nodes.
#[no_mangle]
pub unsafe extern "C" fn rust_read(
    text: *const u8,
    len: usize,
    _wish: usize,
    out: *mut u64,
    room: usize,
    answer: *mut usize,
) -> usize {
    assert!(room >= DIAGRAM);
    let answer = std::slice::from_raw_parts_mut(answer, 4);
    let text = std::slice::from_raw_parts(text, len);
    let told = match Cd::parse(std::str::from_utf8_unchecked(text)) {
        Ok(cd) => {
            (*out.cast::<Diagram>()).lay_out(&cd);
            [0, cd.node_count(), cd.edge_count(), usize::from(cd.minimal())]
        }
        Err(e) => e.answer(),
    };
    answer.copy_from_slice(&told);
    told[0]
}

/// The mirrors of a text (`Cd::cox`, `Cox::normals`) for a caller in C: the count of nodes, 0 where there are none. Row r of
/// column c goes to `out[9 * c + r]`.
///
/// # Safety
/// As for `rust_parse`; `out` points at `room` doubles, 81 or more, and the text has at most nine nodes.
#[no_mangle]
pub unsafe extern "C" fn rust_mirrors(text: *const u8, len: usize, out: *mut f64, room: usize) -> usize {
    let out = std::slice::from_raw_parts_mut(out, room);
    let Some(cox) = diagram(text, len).map(|cd| cd.cox()) else {
        return 0;
    };
    let Some(normals) = cox.normals() else {
        return 0;
    };
    put_matrix(out, cox.dim(), &normals);
    cox.dim()
}

/// The generator of a text (`Cd::generator`) likewise: its coordinates, and its circumradius in `out[9]`.
///
/// # Safety
/// As for `rust_mirrors`; `room` is 10 or more.
#[no_mangle]
pub unsafe extern "C" fn rust_generator(text: *const u8, len: usize, out: *mut f64, room: usize) -> usize {
    let out = std::slice::from_raw_parts_mut(out, room);
    let Some(point) = diagram(text, len).and_then(|cd| cd.generator()) else {
        return 0;
    };
    let at = point.as_slice();
    out[..at.len()].copy_from_slice(at);
    out[9] = point.norm(); // as `Cd::circumradius`, which would make the generator anew
    at.len()
}

/// The reflections of a text (`Cox::gen_iter`, its `gens`) likewise, a matrix after each 81 doubles.
///
/// # Safety
/// As for `rust_mirrors`; `room` is 729 or more.
#[no_mangle]
pub unsafe extern "C" fn rust_reflections(text: *const u8, len: usize, out: *mut f64, room: usize) -> usize {
    let out = std::slice::from_raw_parts_mut(out, room);
    let Some(group) = diagram(text, len).and_then(|cd| cd.cox().gen_iter()) else {
        return 0;
    };
    for (reflection, out) in group.gens.iter().zip(out.chunks_mut(81)) {
        put_matrix(out, group.dim, reflection);
    }
    group.dim
}

unsafe fn diagram(text: *const u8, len: usize) -> Option<Cd> {
    Cd::parse(std::str::from_utf8_unchecked(std::slice::from_raw_parts(text, len))).ok()
}

/// Row r of column c goes to `out[9 * c + r]`.
pub fn put_matrix(out: &mut [f64], dim: usize, matrix: &geometry::Matrix<f64>) {
    for (column, out) in matrix.as_slice().chunks(dim.max(1)).zip(out.chunks_mut(9)) {
        out[..dim].copy_from_slice(column);
    }
}
