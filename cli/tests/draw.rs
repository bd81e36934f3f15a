//! `lexicon draw`, as it is run.

mod common;

use std::{collections::BTreeSet, fmt::Write, fs};

use common::{lexicon, Folder, Run};

/// The least distances that the pictures promise, in their pixels, less what rounding takes.
const APART: f64 = 37.7;
const ASIDE: f64 = 16.1;

type Point = (f64, f64);
type Edges = BTreeSet<(usize, usize)>;

fn run(arguments: &[&str]) -> Run {
    lexicon(&[&["draw"], arguments].concat(), "")
}

/// The picture of a text.
fn draw(text: &str) -> String {
    let run = run(&["--infinite", "-o", "-", "--", text]);
    assert_eq!(run.status, Some(0), "{text}: {run:?}");
    run.out
}

/// The value of an attribute of an element on its own line.
fn attribute<'a>(line: &'a str, name: &str) -> Option<&'a str> {
    let (_, rest) = line.split_once(&format!(" {name}=\""))?;
    rest.split_once('"').map(|(value, _)| value)
}

fn number(line: &str, name: &str) -> f64 {
    let value = attribute(line, name).unwrap_or_else(|| panic!("{name} in {line}"));
    value
        .parse()
        .unwrap_or_else(|_| panic!("{value} in {line}"))
}

/// The lines of a picture that have elements of this kind and class.
fn elements<'a>(svg: &'a str, kind: &str, class: &str) -> Vec<&'a str> {
    let start = format!("<{kind} class=\"{class}\"");
    svg.lines()
        .filter(|line| line.starts_with(&start))
        .collect()
}

/// What is written in elements of this class.
fn written<'a>(svg: &'a str, class: &str) -> Vec<&'a str> {
    let inner = |line: &'a str| line.split(['<', '>']).nth(2);
    elements(svg, "text", class)
        .into_iter()
        .filter_map(inner)
        .collect()
}

fn nodes(svg: &str) -> Vec<Point> {
    let circles = elements(svg, "circle", "node");
    circles
        .iter()
        .map(|line| (number(line, "cx"), number(line, "cy")))
        .collect()
}

/// The edges by their nodes: a line ends at a node's middle or at the rim of an open circle.
fn edges(svg: &str) -> Vec<(usize, usize)> {
    let nodes = nodes(svg);
    let node = |p: Point| {
        let found = nodes.iter().position(|&q| distance(p, q) < 8.1);
        found.unwrap_or_else(|| panic!("no node at {p:?} in {svg}"))
    };
    let lines = elements(svg, "line", "edge");
    let ends = |line: &&str| {
        let a = node((number(line, "x1"), number(line, "y1")));
        let b = node((number(line, "x2"), number(line, "y2")));
        (a.min(b), a.max(b))
    };
    lines.iter().map(ends).collect()
}

fn distance(p: Point, q: Point) -> f64 {
    (p.0 - q.0).hypot(p.1 - q.1)
}

fn from_segment(p: Point, (a, b): (Point, Point)) -> f64 {
    let along = (b.0 - a.0, b.1 - a.1);
    let share = (p.0 - a.0) * along.0 + (p.1 - a.1) * along.1;
    let share = (share / (along.0 * along.0 + along.1 * along.1)).clamp(0.0, 1.0);
    distance(p, (a.0 + along.0 * share, a.1 + along.1 * share))
}

fn side(a: Point, b: Point, p: Point) -> f64 {
    (b.0 - a.0) * (p.1 - a.1) - (b.1 - a.1) * (p.0 - a.0)
}

fn crossings(svg: &str) -> usize {
    let (at, edges) = (nodes(svg), edges(svg));
    let cross = |&(a, b): &(usize, usize), &(c, d): &(usize, usize)| {
        let apart = a != c && a != d && b != c && b != d;
        let (a, b, c, d) = (at[a], at[b], at[c], at[d]);
        // Edges of one line that overlap bring a node onto a foreign edge, which is tested too.
        apart && side(a, b, c) * side(a, b, d) < 0.0 && side(c, d, a) * side(c, d, b) < 0.0
    };
    let pairs = edges
        .iter()
        .enumerate()
        .flat_map(|(i, e)| edges[..i].iter().map(move |f| (e, f)));
    pairs.filter(|(e, f)| cross(e, f)).count()
}

/// Nodes keep their distance from each other, from foreign edges and from the rim of the page.
fn assert_clear(text: &str, svg: &str) {
    let at = nodes(svg);
    let page = svg.lines().next().expect("a first line");
    let (width, height) = (number(page, "width"), number(page, "height"));
    for (i, &p) in at.iter().enumerate() {
        assert!(
            at[..i].iter().all(|&q| distance(p, q) > APART),
            "{text}: {svg}"
        );
        let foreign = edges(svg).into_iter().filter(|&(a, b)| a != i && b != i);
        for (a, b) in foreign {
            assert!(
                from_segment(p, (at[a], at[b])) > ASIDE,
                "{text}: node {i} at {a}-{b} in {svg}"
            );
        }
        assert!(p.0 > 30.0 && p.1 > 30.0 && p.0 < width - 30.0 && p.1 < height - 30.0);
    }
}

/// The number of neighbours of each node, sorted.
fn degrees(count: usize, edges: impl IntoIterator<Item = (usize, usize)>) -> Vec<usize> {
    let mut degrees = vec![0; count];
    for (a, b) in edges {
        degrees[a] += 1;
        degrees[b] += 1;
    }
    degrees.sort_unstable();
    degrees
}

fn text(count: usize, edges: &Edges) -> String {
    let letter = |node: usize| char::from(b'a' + u8::try_from(node).expect("at most nine nodes"));
    let mut text = vec!["o"; count].join(" ");
    for &(a, b) in edges {
        let _ = write!(text, " *{}3*{}", letter(a), letter(b));
    }
    text
}

fn assert_planar(count: usize, edges: &Edges) {
    let text = text(count, edges);
    let svg = draw(&text);
    assert_eq!(crossings(&svg), 0, "{text}: {svg}");
    assert_clear(&text, &svg);
    let drawn = degrees(count, self::edges(&svg));
    assert_eq!(
        drawn,
        degrees(count, edges.iter().copied()),
        "{text}: {svg}"
    );
}

/// Numbers below a limit, always the same ones.
struct Dice(u64);

impl Dice {
    fn below(&mut self, limit: usize) -> usize {
        self.0 = self
            .0
            .wrapping_mul(6_364_136_223_846_793_005)
            .wrapping_add(1_442_695_040_888_963_407);
        let high = usize::try_from(self.0 >> 33).expect("31 bits");
        high % limit
    }
}

fn all_alike(texts: &[&str]) {
    let first = draw(texts[0]);
    for text in texts {
        assert_eq!(draw(text), first, "{text}");
    }
}

#[test]
fn spellings_are_drawn_alike() {
    all_alike(&["x3o4o", "o4o3x", "x3o8/2o", " x3o 4o", "x3o2o *b4*c"]);
    all_alike(&["x5o3o4o3*a", "o5x3o4o3*a", "o3x5o3o4*a", "o4o3x5o3*a"]);
    all_alike(&[
        "o3o3o3o3o3x *c3o",
        "x3o3o3o3o3o *d3o",
        "o3o *a3o3o *a3o3o3x",
    ]);
    all_alike(&["x x3o s3s", "s3s x o3x", "o3x s3s x"]);
    all_alike(&["x3o3o3o3*a3*c", "o3x3o3o3*a *b3*d"]);
}

#[test]
fn other_figures_are_drawn_otherwise() {
    let pictures = [
        "x3o4o", "x4o3o", "s4o3o", "o4o3x o", "(2)4o3o", "(-1)4o3o", "x5/2o3o",
    ]
    .map(draw);
    let different: BTreeSet<&String> = pictures.iter().collect();
    assert_eq!(different.len(), pictures.len());
}

#[test]
fn loops_change_only_what_is_theirs() {
    for (plain, looped, numbers) in [
        ("x3o4o", "x3o4o3*c", vec![]),
        ("x3o4o", "x4*a3o5/2*b4o5*c", vec!["5", "5/2", "4"]),
        ("s3s", "s3s4*b", vec!["4"]),
        ("x3o3o3*a", "x3o3o3*a4*a", vec!["4"]),
    ] {
        let (plain, looped) = (draw(plain), draw(looped));
        let mut left = looped.clone();
        let from = left.find("<g ").expect("a group");
        let start = left[from..]
            .match_indices("<g ")
            .nth(2)
            .expect("a group of loops")
            .0
            + from;
        let end = left.rfind("</svg>").expect("an end");
        left.replace_range(start..end, "");
        assert_eq!(left, plain);
        assert_eq!(written(&looped, "loop"), numbers, "{looped}");
        assert!(!elements(&looped, "path", "loop").is_empty());
    }
    let wide = draw("x4294967295/4294967294*a");
    assert_eq!(
        nodes(&wide),
        nodes(&draw("x")),
        "a long number moves no node"
    );
}

#[test]
fn kinds_of_nodes() {
    let svg = draw("x3o3s");
    let drawn = elements(&svg, "circle", "node");
    let radii: Vec<&str> = drawn
        .iter()
        .filter_map(|line| attribute(line, "r"))
        .collect();
    let filled: Vec<bool> = drawn
        .iter()
        .map(|line| line.contains("fill=\"black\""))
        .collect();
    // The record has unringed nodes first, then ringed ones, then snub ones.
    assert_eq!(radii, ["3.6", "3.6", "8"]);
    assert_eq!(filled, [true, true, false]);
    assert_eq!(elements(&svg, "circle", "ring").len(), 1);
    // The line to an open circle ends at its rim.
    let at = nodes(&svg);
    let line = elements(&svg, "line", "edge")[1];
    assert!((number(line, "x2") - (at[2].0 - 8.0)).abs() < 0.001);
}

#[test]
fn numbers_and_lengths() {
    assert!(written(&draw("x3o3o"), "number").is_empty());
    assert!(written(&draw("x3s3(1)3(1.0)"), "length").is_empty());
    assert_eq!(written(&draw("x4o5/2o6/2o"), "number").len(), 2);
    let mut numbers = written(&draw("x4o5/2o10/4o4294967295o"), "number").join(" ");
    numbers += " ";
    for number in ["4 ", "5/2 ", "4294967295 "] {
        assert!(numbers.contains(number), "{numbers}");
    }
    for (text, length) in [
        ("(1.5)", "1.5"),
        ("q", "q"),
        ("u", "2"),
        ("(2e1)", "20"),
        ("(-3)", "−3"),
        ("(0)", "0"),
        ("(-0)", "−0"),
        ("(inf)", "∞"),
        ("(-inf)", "−∞"),
    ] {
        let svg = draw(text);
        assert_eq!(written(&svg, "length"), [length]);
        assert_eq!(elements(&svg, "circle", "ring").len(), 1, "{text}");
    }
}

#[test]
fn chains_are_straight() {
    for text in ["x3o3o3o3o3o3o3o3o", "s4s", "o5/2x3o"] {
        let at = nodes(&draw(text));
        assert!(at.iter().all(|p| (p.1 - at[0].1).abs() < 0.001), "{text}");
    }
    let at = nodes(&draw("o3o4x"));
    let left = at.iter().map(|p| p.0).fold(f64::INFINITY, f64::min);
    assert!((at[2].0 - left).abs() < 0.001, "the ringed end is left");
}

#[test]
fn no_nodes() {
    let svg = draw("*a");
    assert!(nodes(&svg).is_empty());
    assert!(svg.starts_with("<svg xmlns=\"http://www.w3.org/2000/svg\" viewBox="));
    assert!(svg.contains("<title>Coxeter diagram of 0 nodes</title>"));
}

#[test]
fn files_are_written_whole_or_not_at_all() {
    let folder = Folder::new();
    let path = folder.path("a.svg");
    let name = path.to_str().expect("a name in UTF-8");
    let refused = run(&["x1o", "-o", name]);
    assert_eq!((refused.status, &refused.out[..]), (Some(1), ""));
    assert!(refused.err.starts_with("TEXT:2: "), "{refused:?}");
    assert!(folder.names().is_empty(), "a refused text leaves no file");

    for text in ["x3o4o", "x4o3o"] {
        run(&[text, "-o", name]).gives(0, "", "");
        assert_eq!(fs::read_to_string(&path).expect("a picture"), draw(text));
        assert_eq!(folder.names(), ["a.svg"]);
    }
    let missing = folder.path("none").join("a.svg");
    for path in [&missing, &folder.0] {
        let failed = run(&["x3o4o", "-o", path.to_str().expect("a name in UTF-8")]);
        assert_eq!(failed.status, Some(2), "{failed:?}");
        assert!(!failed.err.is_empty());
    }
    assert_eq!(folder.names(), ["a.svg"]);
    assert_eq!(run(&["(inf)", "-o", "-"]).status, Some(1));
}

#[test]
fn known_planar_figures_have_no_crossings() {
    let cycle = |nodes: &[usize]| {
        let next = |i: usize| nodes[(i + 1) % nodes.len()];
        (0..nodes.len())
            .map(|i| (nodes[i].min(next(i)), nodes[i].max(next(i))))
            .collect::<Edges>()
    };
    let star = |hub: usize| (0..hub).map(move |leaf| (leaf, hub));
    for size in 3..9 {
        assert_planar(size, &cycle(&(0..size).collect::<Vec<_>>()));
        let mut wheel = cycle(&(0..size).collect::<Vec<_>>());
        wheel.extend(star(size));
        assert_planar(size + 1, &wheel);
        assert_planar(size + 1, &star(size).collect());
    }
    for others in 2..8 {
        let joined = (0..others).flat_map(|node| [(node, others), (node, others + 1)]);
        assert_planar(others + 2, &joined.collect());
    }
    let mut prism = &cycle(&[0, 1, 2]) | &cycle(&[3, 4, 5]);
    prism.extend([(0, 3), (1, 4), (2, 5)]);
    assert_planar(6, &prism);
    prism.extend([(0, 4), (1, 5), (2, 3)]); // an octahedron
    assert_planar(6, &prism);
    let mut cube = &cycle(&[0, 1, 2, 3]) | &cycle(&[4, 5, 6, 7]);
    cube.extend([(0, 4), (1, 5), (2, 6), (3, 7)]);
    assert_planar(8, &cube);
    let squares = (0..9_usize).flat_map(|i| [(i, i + 1, i % 3 < 2), (i, i + 3, i < 6)]);
    assert_planar(9, &squares.filter(|s| s.2).map(|s| (s.0, s.1)).collect());
}

#[test]
fn trees_and_single_cycles_have_no_crossings() {
    let mut dice = Dice(1);
    for round in 0..200 {
        let count = 4 + round % 6;
        // The nodes before the first one that grows out of others make a cycle, if there are three.
        let cycle = if round % 2 == 0 {
            1
        } else {
            3 + dice.below(count - 2)
        };
        let mut edges: Edges = (1..cycle).map(|node| (node - 1, node)).collect();
        if cycle > 2 {
            edges.insert((0, cycle - 1));
        }
        for node in cycle..count {
            let least = if round % 5 == 0 {
                node.saturating_sub(3)
            } else {
                0
            };
            edges.insert((least + dice.below(node - least), node));
        }
        assert_planar(count, &edges);
    }
}

#[test]
fn planar_graphs_have_no_crossings() {
    let mut dice = Dice(2);
    for round in 0..150 {
        let count = 4 + round % 6;
        // A node in a triangle, again and again; then some edges less.
        let mut triangles = vec![[0, 1, 2], [0, 1, 2]];
        let mut edges: Edges = [(0, 1), (0, 2), (1, 2)].into();
        for node in 3..count {
            let [a, b, c] = triangles.swap_remove(dice.below(triangles.len()));
            triangles.extend([[a, b, node], [a, c, node], [b, c, node]]);
            edges.extend([(a, node), (b, node), (c, node)]);
        }
        for _ in 0..dice.below(edges.len() / 2) {
            let edge = *edges.iter().nth(dice.below(edges.len())).expect("an edge");
            edges.remove(&edge);
        }
        assert_planar(count, &edges);
    }
}

#[test]
fn other_graphs_are_readable() {
    for count in 5..10 {
        let complete: Edges = (0..count)
            .flat_map(|b| (0..b).map(move |a| (a, b)))
            .collect();
        let text = text(count, &complete);
        let svg = draw(&text);
        assert_clear(&text, &svg);
        assert_eq!(edges(&svg).len(), complete.len());
    }
    let mut dice = Dice(3);
    for _ in 0..40 {
        let edges: Edges = (0..9)
            .flat_map(|b| (0..b).map(move |a| (a, b)))
            .filter(|_| dice.below(2) == 0)
            .collect();
        let text = text(9, &edges);
        assert_clear(&text, &draw(&text));
    }
}
