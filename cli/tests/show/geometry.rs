//! `--geometry`, with and without `--bits`.

use std::slice::Iter;

use lexicon::{Cd, CdError, CdResult, Generator, Matrix};

use crate::{lines, number, random::Random, run};

/// The lines that are not read yet, and how their doubles are read.
struct Shown<'a> {
    lines: Iter<'a, String>,
    read: fn(&str) -> f64,
}

impl Shown<'_> {
    fn line(&mut self) -> &str {
        self.lines.next().unwrap()
    }

    /// The doubles of so many rows, without their names. Those of columns stand above them.
    fn square(&mut self, rows: usize) -> Vec<Vec<u64>> {
        let names = "abcdefghi".chars().take(rows);
        let line = self.line().split_whitespace().collect::<String>();
        assert_eq!(line, names.collect::<String>());
        self.rows(rows)
    }

    fn rows(&mut self, rows: usize) -> Vec<Vec<u64>> {
        let read = self.read;
        let cells = |row: &String| -> Vec<u64> {
            let cells = row.split_whitespace().skip(1);
            cells.map(|cell| read(cell).to_bits()).collect()
        };
        self.lines.by_ref().take(rows).map(cells).collect()
    }
}

/// The bits of a square's doubles, row by row.
fn rows(dim: usize, entry: impl Fn(usize, usize) -> f64) -> Vec<Vec<u64>> {
    let row = |i| (0..dim).map(|j| entry(i, j).to_bits()).collect();
    (0..dim).map(row).collect()
}

fn check_mirrors(shown: &mut Shown, title: &str, mirror: &str, expected: CdResult<Matrix>) {
    match expected {
        Ok(mirrors) => {
            assert_eq!(
                shown.line(),
                format!("{title}, the columns their unit normals:")
            );
            let dim = mirrors.dim();
            assert_eq!(shown.square(dim), rows(dim, |i, j| mirrors[(i, j)]));
        }
        Err(refusal) => assert_eq!(shown.line(), format!("{title}: {}", none(mirror, &refusal))),
    }
}

/// `titles` are those of the generator, what is said of it, and that of its radius.
fn check_generator(
    shown: &mut Shown,
    titles: [&str; 3],
    mirror: &str,
    expected: CdResult<Generator>,
) {
    let [generator, rest, radius] = titles;
    match expected {
        Ok(point) => {
            assert_eq!(shown.line(), format!("{generator}, {rest}:"));
            let coordinates = point.coordinates().iter().map(|x| vec![x.to_bits()]);
            let coordinates: Vec<_> = coordinates.collect();
            assert_eq!(shown.rows(coordinates.len()), coordinates);
            let read = shown.read;
            let told = shown.line().strip_prefix(&format!("{radius}: ")).unwrap();
            assert_eq!(read(told).to_bits(), point.radius().to_bits());
        }
        Err(refusal) => {
            let why = none(mirror, &refusal);
            assert_eq!(shown.line(), format!("{generator}: {why}"));
            assert_eq!(shown.line(), format!("{radius}: {why}"));
        }
    }
}

/// Compares all that is shown from the matrix on, in its order.
fn check_geometry(cd: &Cd, lines: &[String], read: fn(&str) -> f64) {
    let start = lines.iter().position(|line| line == "matrix:").unwrap();
    let lines = lines[start + 1..].iter();
    let shown = &mut Shown { lines, read };
    let cox = cd.cox();
    assert_eq!(shown.square(cd.dim()), rows(cd.dim(), |i, j| cox[(i, j)]));

    check_mirrors(shown, "walls", "wall", cox.walls());
    let titles = ["generator", "at half each length from its wall", "radius"];
    check_generator(shown, titles, "wall", cd.wall_generator());

    let title = "mirrors as miratope-core has them";
    check_mirrors(shown, title, "mirror", cox.normals());
    let titles = [
        "generator as miratope-core has it",
        "which depends on the order of typing, as its radius does",
        "radius as miratope-core has it",
    ];
    check_generator(shown, titles, "mirror", cd.generator());
    assert_eq!(shown.lines.next(), None);
}

fn none(mirror: &str, refusal: &CdError) -> String {
    let name = |node: usize| char::from(b"abcdefghi"[node]);
    match *refusal {
        CdError::Crowded { column } => format!(
            "none, refusal 15: {mirror} {} does not fit in spherical space",
            name(column)
        ),
        CdError::Infinite { node } => format!(
            "none, refusal 16: the length of node {} is infinite",
            name(node)
        ),
        ref other => panic!("{other}"),
    }
}

fn bits(text: &str) -> f64 {
    assert_eq!(text.len(), 16);
    f64::from_bits(u64::from_str_radix(text, 16).unwrap())
}

fn check_both(cd: &Cd) {
    let arguments = ["--infinite", "--geometry", cd.text(), "--bits"];
    check_geometry(cd, &lines(&arguments[..3]), number);
    check_geometry(cd, &lines(&arguments), bits);
}

/// Texts with and without mirrors, walls and generators.
const TEXTS: [&str; 12] = [
    "x",
    "x3o4o",
    "o4o3x",
    "x5/2o5o",
    "x4o4o",
    "(inf)3o",
    "(inf)6o3o",
    "x3o3o3o3*a",
    "x3*a3o",
    "o3o3o3o3o3o3o *c3x",
    "(-0)3(1e-22)2(123456789.25)3s",
    "x100000/99999o3x3x",
];

#[test]
fn geometry_is_the_librarys_to_the_bit() {
    for text in TEXTS {
        check_both(&Cd::parse_with_infinite(text).unwrap());
    }
    let mut random = Random(0x5eed);
    let mut points = [0; 2];
    for cd in (0..300).filter_map(|_| Cd::parse_with_infinite(random.typed()).ok()) {
        check_both(&cd);
        points[0] += usize::from(cd.generator().is_ok());
        points[1] += usize::from(cd.wall_generator().is_ok());
    }
    assert!(points.into_iter().min() > Some(50), "{points:?} generators");
}

/// Each set is there or refused on its own.
#[test]
fn cycles_may_have_mirrors_or_walls_alone() {
    for (text, walls, mirrors) in [
        ("o3o3o3*a", false, true),
        ("(inf)3o3o3*a", false, true),
        ("x5/4o5/4o5/4*a", true, false),
        ("x4(inf)4x4*a", false, true),
        ("(inf)4o4o", false, false),
    ] {
        let cd = Cd::parse_with_infinite(text).unwrap();
        let there = [cd.cox().walls().is_ok(), cd.cox().normals().is_ok()];
        assert_eq!(there, [walls, mirrors], "{text}");
        check_both(&cd);
    }
}

#[test]
fn no_nodes_have_no_geometry() {
    let geometry = "\
matrix:
  (no nodes)
walls, the columns their unit normals:
  (no nodes)
generator, at half each length from its wall:
  (no nodes)
radius: 0
mirrors as miratope-core has them, the columns their unit normals:
  (no nodes)
generator as miratope-core has it, which depends on the order of typing, as its radius does:
  (no nodes)
radius as miratope-core has it: 0";
    let shown = lines(&["*a", "--geometry"]).join("\n");
    assert!(shown.ends_with(geometry), "{shown}");
}

#[test]
fn geometry_looks_as_it_should() {
    let geometry = "\
matrix:
     a  b
  a  1  2
  b  2  1
walls, the columns their unit normals:
     a   b
  1  1  -0
  2  0   1
generator, at half each length from its wall:
  1  0.5
  2  1
radius: 1.118033988749895
mirrors as miratope-core has them, the columns their unit normals:
     a  b
  1  1  0
  2  0  1
generator as miratope-core has it, which depends on the order of typing, as its radius does:
  1  1
  2  2
radius as miratope-core has it: 2.23606797749979";
    let shown = lines(&["x2u", "--geometry"]).join("\n");
    assert!(shown.ends_with(geometry), "{shown}");
}

#[test]
fn bits_are_those_of_the_geometry() {
    assert_eq!(run(&["x3o", "--bits"]).status, Some(2));
}
