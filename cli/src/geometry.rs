//! `lexicon show --geometry`: the matrix, then the walls with their generator and its radius, then
//! the mirrors with theirs, as miratope-core has them.

use std::io::{self, Write};

use lexicon::{Cd, CdError, CdResult, Generator, Matrix};

use crate::names::{decimal, name};

/// How doubles are written. Either way they can be read back as they are.
#[derive(Clone, Copy)]
pub enum Form {
    /// In the shortest decimals that give the double.
    Decimal,
    /// As 16 hexadecimal digits.
    Bits,
}

impl Form {
    fn write(self, double: f64) -> String {
        match self {
            Self::Decimal => decimal(double),
            Self::Bits => format!("{:016x}", double.to_bits()),
        }
    }

    /// How many characters of a cell stand before the point, below which those of its column are put.
    fn before_point(self, cell: &str) -> usize {
        match self {
            Self::Decimal => cell.find('.').unwrap_or(cell.len()),
            Self::Bits => 0,
        }
    }
}

/// What mirrors, the generator over them and its radius are called.
struct Words {
    mirror: &'static str,
    mirrors: &'static str,
    generator: &'static str,
    /// What else is to be known of the generator.
    point: &'static str,
    radius: &'static str,
}

/// Coxeter's mirrors, whose generator has the radius that an editor prints.
const WALLS: Words = Words {
    mirror: "wall",
    mirrors: "walls",
    generator: "generator",
    point: "at half each length from its wall",
    radius: "radius",
};

const MIRRORS: Words = Words {
    mirror: "mirror",
    mirrors: "mirrors as miratope-core has them",
    generator: "generator as miratope-core has it",
    point: "which depends on the order of typing, as its radius does",
    radius: "radius as miratope-core has it",
};

/// Writes all of a diagram's geometry.
pub fn show(cd: &Cd, form: Form, out: &mut impl Write) -> io::Result<()> {
    let cox = cd.cox();
    let names = node_names(cd.node_count());
    writeln!(out, "matrix:")?;
    let cells = table(&names, &names, |i, j| form.write(cox[(i, j)]));
    write_table(out, form, &cells)?;
    show_mirrors(&WALLS, cox.walls(), form, out)?;
    show_generator(&WALLS, cd.wall_generator(), form, out)?;
    show_mirrors(&MIRRORS, cox.normals(), form, out)?;
    show_generator(&MIRRORS, cd.generator(), form, out)
}

/// Writes mirrors. Where there are none, it is said why.
fn show_mirrors(
    words: &Words,
    mirrors: CdResult<Matrix>,
    form: Form,
    out: &mut impl Write,
) -> io::Result<()> {
    match mirrors {
        Ok(mirrors) => {
            writeln!(out, "{}, the columns their unit normals:", words.mirrors)?;
            let (columns, rows) = (node_names(mirrors.dim()), coordinate_names(mirrors.dim()));
            let cells = table(&columns, &rows, |i, j| form.write(mirrors[(i, j)]));
            write_table(out, form, &cells)
        }
        Err(refusal) => {
            let why = lacking(words, &refusal);
            writeln!(out, "{}: {why}", words.mirrors)
        }
    }
}

/// Writes a generator and its radius. Where there is none, it is said why.
fn show_generator(
    words: &Words,
    point: CdResult<Generator>,
    form: Form,
    out: &mut impl Write,
) -> io::Result<()> {
    let &Words {
        generator, radius, ..
    } = words;
    match point {
        Ok(point) => {
            writeln!(out, "{generator}, {}:", words.point)?;
            let coordinates = point.coordinates();
            let rows = coordinate_names(coordinates.len());
            let cells = table(&[], &rows, |i, _| form.write(coordinates[i]));
            write_table(out, form, &cells)?;
            writeln!(out, "{radius}: {}", form.write(point.radius()))
        }
        Err(refusal) => {
            let why = lacking(words, &refusal);
            writeln!(out, "{generator}: {why}\n{radius}: {why}")
        }
    }
}

fn node_names(nodes: usize) -> Vec<String> {
    (0..nodes).map(|node| name(node).to_string()).collect()
}

fn coordinate_names(coordinates: usize) -> Vec<String> {
    (1..=coordinates).map(|row| row.to_string()).collect()
}

/// Why there is none.
fn lacking(words: &Words, refusal: &CdError) -> String {
    let why = match *refusal {
        CdError::Crowded { column } => format!(
            "{} {} does not fit in spherical space",
            words.mirror,
            name(column)
        ),
        CdError::Infinite { node } => format!("the length of node {} is infinite", name(node)),
        ref other => other.to_string(),
    };
    format!("none, refusal {}: {why}", refusal.number())
}

/// The cells of a table, those with the names of rows and columns included. Without names of columns
/// it has one column.
fn table(
    columns: &[String],
    rows: &[String],
    cell: impl Fn(usize, usize) -> String,
) -> Vec<Vec<String>> {
    let mut cells = Vec::new();
    if !columns.is_empty() {
        cells.push([&[String::new()], columns].concat());
    }
    for (i, row) in rows.iter().enumerate() {
        let entries = (0..columns.len().max(1)).map(|j| cell(i, j));
        cells.push([row.clone()].into_iter().chain(entries).collect());
    }
    cells
}

/// Writes a table, each column's points below each other.
fn write_table(out: &mut impl Write, form: Form, cells: &[Vec<String>]) -> io::Result<()> {
    if cells.is_empty() {
        return writeln!(out, "  (no nodes)");
    }
    let mut lines = vec![String::new(); cells.len()];
    for column in 0..cells[0].len() {
        let points = cells.iter().map(|row| form.before_point(&row[column]));
        let point = points.max().unwrap_or(0);
        let start = lines.iter().map(String::len).max().unwrap_or(0) + 2;
        for (line, row) in lines.iter_mut().zip(cells) {
            let indent = start + point - form.before_point(&row[column]);
            *line = format!("{line:indent$}{}", row[column]);
        }
    }
    for line in lines {
        writeln!(out, "{}", line.trim_end())?;
    }
    Ok(())
}
