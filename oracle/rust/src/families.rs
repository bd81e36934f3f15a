//! What `Cox` does not tell by itself: a family by its letter, and the column at which mirrors end.

use std::panic;

use crate::{cox::Cox, geometry::Matrix};

/// The family of a letter and a size, `None` where the Rust has none or panics.
pub fn family(letter: u8, size: usize) -> Option<Cox<f64>> {
    let make: fn(usize) -> Cox<f64> = match letter {
        b'A' => Cox::a,
        b'B' => Cox::b,
        b'D' => Cox::d,
        b'E' => Cox::e,
        b'H' => Cox::h,
        _ => return None,
    };
    panic::catch_unwind(|| make(size)).ok()
}

/// The column at which `Cox::normals`, which doesn't say it, finds that there are no mirrors. A leading minor has the first
/// columns of the whole: the first minor that has no mirrors ends in the column.
pub fn column_without_mirrors(cox: &Cox<f64>) -> Option<usize> {
    let minor = |dim| Cox::new(Matrix::from_fn(dim, dim, |row, column| cox[(row, column)]));
    (0..cox.dim()).find(|&i| minor(i + 1).normals().is_none())
}
