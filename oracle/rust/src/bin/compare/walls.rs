//! Ticket K7's walls and the generator over them, written from the ticket's words and apart from the port. The matrix is the
//! Rust's, the cosine document 01's.

use miratope::{
    cox::{cd::Cd, Cox},
    diagrams::LIMIT,
    float::Float,
};

use crate::port::{GENERATOR, SQUARE};

/// "s ≥ 1 − 1e-7 is refused"
const TOO_LONG: f64 = 1.0 - 1e-7;

/// "a second set of mirrors with each cosine negated, 01's steps and tolerance otherwise": zeros past the last node; or the
/// column of refusal 15.
pub fn walls(cox: &Cox<f64>) -> Result<[f64; SQUARE], usize> {
    let mut columns = [[0.0; LIMIT]; LIMIT];
    for i in 0..cox.dim() {
        for j in 0..i {
            let cosine = (<f64 as Float>::PI / cox[(i, j)]).fcos();
            let known = dot(&columns[i][..=j], &columns[j][..=j]);
            columns[i][j] = (-cosine - known) / columns[j][j];
        }
        let s = dot(&columns[i], &columns[i]);
        if s >= TOO_LONG {
            return Err(i);
        }
        columns[i][i] = (1.0 - s).sqrt();
    }
    Ok(columns.concat().try_into().unwrap())
}

/// The generator of a diagram that has walls, zeros past the last node, and its circumradius; or the node of refusal 16. "Its
/// coordinates come by rising i: half the node's value, less each earlier coordinate k < i times row k of column i, taken off
/// by rising k, the rest divided by row i of column i."
pub fn generator(cd: &Cd, walls: &[f64; SQUARE]) -> Result<[f64; GENERATOR], usize> {
    if let Some(node) = cd.node_iter().position(|node| node.value().is_infinite()) {
        return Err(node);
    }
    let mut out = [0.0; GENERATOR];
    for (i, (node, column)) in cd.node_iter().zip(walls.chunks(LIMIT)).enumerate() {
        let mut rest = node.value() / 2.0;
        for k in 0..i {
            rest -= out[k] * column[k];
        }
        out[i] = rest / column[i];
    }
    out[LIMIT] = dot(&out[..LIMIT], &out[..LIMIT]).sqrt();
    Ok(out)
}

/// "Sums run by rising index from 0.0".
fn dot(a: &[f64], b: &[f64]) -> f64 {
    a.iter().zip(b).fold(0.0, |sum, (a, b)| sum + a * b)
}
