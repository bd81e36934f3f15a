//! `lexicon show`, run as a program.

mod common;
#[path = "show/geometry.rs"]
mod geometry;
#[path = "show/groups.rs"]
mod groups;
#[path = "show/random.rs"]
mod random;
#[path = "show/reader.rs"]
mod reader;

use std::{str::FromStr, thread};

use common::{lexicon, Run};
use lexicon::{Cd, Node};
use random::Random;
use reader::Said;

fn run(arguments: &[&str]) -> Run {
    lexicon(&[&["show"], arguments].concat(), "")
}

/// The lines of a run that must go well.
fn lines(arguments: &[&str]) -> Vec<String> {
    let Run { status, out, err } = run(arguments);
    assert_eq!((status, &err[..]), (Some(0), ""), "{arguments:?}");
    let text = out;
    assert!(text.is_ascii() && text.ends_with('\n'), "{arguments:?}");
    text.lines().map(str::to_owned).collect()
}

/// What a drawing should say.
fn expected(cd: &Cd) -> Said {
    let symbol = |node: &Node| match *node {
        Node::Unringed => "o".to_string(),
        Node::Ringed(1.0) => "x".into(),
        Node::Ringed(length) => format!("x({length:e})"),
        Node::Snub(1.0) => "s".into(),
        Node::Snub(length) => format!("s({length:e})"),
    };
    let edges = cd.edges().into_iter().map(|stored| {
        let number = stored.edge.to_string().replace(' ', "");
        (stored.a, stored.b, number)
    });
    Said {
        nodes: cd.nodes().iter().map(symbol).collect(),
        edges: edges.collect(),
    }
}

/// Writes the length of a symbol as [`expected`] does.
fn uniform(symbol: &str) -> String {
    let Some((letter, length)) = symbol.split_once('(') else {
        return symbol.into();
    };
    let length: f64 = number(length.strip_suffix(')').unwrap());
    assert_ne!(length.to_bits(), 1.0_f64.to_bits(), "{symbol}");
    format!("{letter}({length:e})")
}

fn number<T: FromStr>(text: &str) -> T {
    text.parse()
        .unwrap_or_else(|_| panic!("{text} is no number"))
}

/// The drawing, and the lines after it.
fn parts(shown: &[String]) -> (Vec<&str>, &[String]) {
    let blank = shown.iter().position(String::is_empty);
    let drawing = &shown[..blank.unwrap_or(0)];
    let rest = &shown[blank.map_or(0, |blank| blank + 1)..];
    (drawing.iter().map(String::as_str).collect(), rest)
}

/// Compares what is shown of a text with what it says.
fn check(text: &str, cd: &Cd) {
    let shown = lines(&["--infinite", text]);
    let (drawing, lists) = parts(&shown);
    assert!(drawing.iter().all(|row| row.trim_end() == *row), "{text}");
    let mut said = reader::read(&drawing);
    said.nodes = said.nodes.iter().map(|symbol| uniform(symbol)).collect();
    assert_eq!(said, expected(cd), "{text}\n{}", drawing.join("\n"));
    assert_eq!(lists, listed(cd), "{text}");
}

/// What should be listed.
fn listed(cd: &Cd) -> Vec<String> {
    let name = |node: usize| char::from(b"abcdefghi"[node]);
    let length = |length: f64| format!("{length:?}").trim_end_matches(".0").to_string();
    let head = |what, count| format!("{what}:{}", if count == 0 { " none" } else { "" });
    let mut lines = vec![head("nodes", cd.node_count())];
    lines.extend(cd.node_iter().enumerate().map(|(i, node)| match node {
        Node::Unringed => format!("  {}: unringed", name(i)),
        Node::Ringed(value) => format!("  {}: ringed, length {}", name(i), length(value)),
        Node::Snub(value) => format!("  {}: snub, length {}", name(i), length(value)),
    }));
    lines.push(head("edges", cd.edge_count()));
    lines.extend(cd.edges().iter().map(|stored| {
        let number = stored.edge.to_string().replace(' ', "");
        let rest = if stored.is_loop() { ", a loop" } else { "" };
        format!("  {}-{}: {number}{rest}", name(stored.a), name(stored.b))
    }));
    lines.push(if cd.minimal() {
        "minimal: yes, each component has a ringed node".into()
    } else {
        "minimal: no, a component has no ringed node".into()
    });
    lines.extend(groups::listed(cd));
    lines
}

/// Checks so many random texts that are accepted.
fn check_random(seed: u64, count: usize) {
    let mut random = Random(seed);
    let mut checked = 0;
    while checked < count {
        let text = if random.below(2) == 0 {
            random.typed()
        } else {
            random.graph()
        };
        if let Ok(cd) = Cd::parse_with_infinite(&text) {
            check(&text, &cd);
            checked += 1;
        }
    }
}

#[test]
fn drawings_say_what_texts_say() {
    let seeds = [0x9e37_79b9, 0x7f4a_7c15, 0x1234_5678, 0x0bad_cafe];
    let threads = seeds.map(|seed| thread::spawn(move || check_random(seed, 800)));
    for thread in threads {
        thread.join().unwrap();
    }
}

#[test]
fn special_drawings_say_what_texts_say() {
    let all: String =
        (1..9)
            .flat_map(|b| (0..b).map(move |a| (a, b)))
            .fold("o".repeat(9), |text, (a, b)| {
                let [a, b] = [a, b].map(|node| char::from(b"abcdefghi"[node]));
                format!("{text}*{a}3*{b}")
            });
    let widest = "o4294967295/4294967294o4294967293/4294967292o4294967291/4294967290*a";
    let forks = "o3o3o *b3o3o *d3o *b4o *b5o *f6o";
    for text in [
        "*a",
        "o",
        "x3*a",
        "x3*a4o5*b",
        "x3*c oo",
        "oo3o3*a",
        &all,
        widest,
        forks,
        "(inf)3(-0)5(1e-22)",
    ] {
        check(text, &Cd::parse_with_infinite(text).unwrap());
    }
}

/// Texts and their drawings, as they should look.
const LOOKS: &str = include_str!("show/looks.txt");

#[test]
fn drawings_look_as_they_should() {
    for case in LOOKS.trim_end().split("\n\n") {
        let mut case = case.lines();
        let text = case.next().unwrap();
        let shown = lines(&[text]);
        assert_eq!(parts(&shown).0, case.collect::<Vec<_>>(), "{text}");
    }
}

#[test]
fn refused_texts_are_told() {
    let refused = run(&["x1o"]);
    assert_eq!((refused.status, &refused.out[..]), (Some(1), ""));
    assert!(refused.err.starts_with("TEXT:2: "));

    assert_eq!(run(&["(inf)3o"]).status, Some(1));
    assert_eq!(run(&["--infinite", "(inf)3o"]).status, Some(0));
}
