//! Answers each line of standard input with the Rust's matrices, mirrors, generators and reflections, one line each. A
//! double is a space and the sixteen hex digits of its bits, ` nan` if it is none; a matrix is written column by column.
//!
//! * `m TEXT`, the matrix (`Cd::cox`): `ok`, the count of nodes, its doubles;
//! * `n TEXT`, the mirrors (`Cox::normals`): the same, or `no 15` and the column at which the Rust stops;
//! * `g TEXT`, the generator (`Cd::generator`): `ok`, the count, its coordinates, its circumradius; or `no 15` likewise;
//! * `r TEXT`, the reflections (`Cox::gen_iter`): `ok`, the count, mirror by mirror a matrix; or `no 15` likewise;
//! * `M LETTER SIZE`, `N LETTER SIZE`: the matrix and the mirrors of `Cox::a`, `b`, `d`, `e`, `h`;
//! * a text that is refused: `no`, document 01's number and fields;
//! * `?` where the Rust has no answer: on a text as `reading` prints it; an infinite or nan circumradius (16); a
//!   family that it lacks or panics on, or beyond nine nodes (17).

use std::{fmt::Write, io, ops::Index};

use miratope::{
    cox::{cd::Cd, Cox},
    families, lines,
};

fn main() -> io::Result<()> {
    lines::answer_each(answer)
}

fn answer(line: &[u8]) -> Option<String> {
    let (&kind, rest) = line.split_first()?;
    let rest = rest.strip_prefix(b" ")?;
    match kind {
        b'M' => family(rest).map(|cox| matrix(&cox)),
        b'N' => family(rest).map(|cox| mirrors(&cox)),
        _ => match lines::read(rest)? {
            Ok(cd) => of_diagram(kind, &cd),
            Err(e) => Some(lines::refused(e)),
        },
    }
}

fn of_diagram(kind: u8, cd: &Cd) -> Option<String> {
    match kind {
        b'm' => Some(matrix(&cd.cox())),
        b'n' => Some(mirrors(&cd.cox())),
        b'g' => generator(cd),
        b'r' => Some(reflections(&cd.cox())),
        _ => None,
    }
}

fn family(line: &[u8]) -> Option<Cox<f64>> {
    let (&letter, size) = line.split_first()?;
    let size = std::str::from_utf8(size.strip_prefix(b" ")?).ok()?.parse().ok()?;
    if size > 9 {
        return None;
    }
    families::family(letter, size)
}

fn matrix(cox: &Cox<f64>) -> String {
    let dim = cox.dim();
    let mut line = format!("ok {dim}");
    put_matrix(&mut line, dim, cox);
    line
}

fn mirrors(cox: &Cox<f64>) -> String {
    let Some(normals) = cox.normals() else {
        return no_mirrors(cox);
    };
    let dim = cox.dim();
    let mut line = format!("ok {dim}");
    put_matrix(&mut line, dim, &normals);
    line
}

fn generator(cd: &Cd) -> Option<String> {
    let (Some(point), Some(radius)) = (cd.generator(), cd.circumradius()) else {
        return Some(no_mirrors(&cd.cox()));
    };
    if !radius.is_finite() {
        return None;
    }
    let mut line = format!("ok {}", cd.dim());
    for &coordinate in point.as_slice() {
        put(&mut line, coordinate);
    }
    put(&mut line, radius);
    Some(line)
}

fn reflections(cox: &Cox<f64>) -> String {
    let Some(group) = cox.gen_iter() else {
        return no_mirrors(cox);
    };
    let mut line = format!("ok {}", group.gens.len());
    for reflection in &group.gens {
        put_matrix(&mut line, group.dim, reflection);
    }
    line
}

fn no_mirrors(cox: &Cox<f64>) -> String {
    format!("no 15 {}", families::column_without_mirrors(cox).unwrap())
}

fn put_matrix(line: &mut String, dim: usize, entries: &impl Index<(usize, usize), Output = f64>) {
    for column in 0..dim {
        for row in 0..dim {
            put(line, entries[(row, column)]);
        }
    }
}

fn put(line: &mut String, value: f64) {
    if value.is_nan() {
        line.push_str(" nan");
    } else {
        write!(line, " {:016x}", value.to_bits()).unwrap();
    }
}
