//! `lexicon same` and `lexicon record`.

mod common;

use common::lexicon;
use lexicon::Cd;

#[test]
fn same_tells_which_node_is_which() {
    let ran = lexicon(&["same", "x3o4o", "o4o3x"], "");
    assert_eq!(ran.status, Some(0));
    assert_eq!(
        ran.out,
        "one figure, its nodes in corresponding order:\n  x3o4o  a b c\n  o4o3x  c b a\n"
    );
    let ran = lexicon(&["same", "*a", "*b"], "");
    assert_eq!(
        (ran.status, &ran.out[..]),
        (
            Some(0),
            "one figure, its nodes in corresponding order:\n  *a\n  *b\n"
        )
    );
}

#[test]
fn same_tells_two_figures_and_refusals_apart() {
    let ran = lexicon(&["same", "x3o4o", "x4o3o"], "");
    assert_eq!((ran.status, &ran.out[..]), (Some(1), "two figures\n"));
    let ran = lexicon(&["same", "x_", "x3"], "");
    assert_eq!((ran.status, &ran.out[..]), (Some(2), ""));
    assert!(
        ran.err
            .starts_with("A:2: this symbol does not fit here\n  x_\n   ^\n"),
        "{}",
        ran.err
    );
    assert!(
        ran.err.contains("\nB:3: the text ends too soon\n"),
        "{}",
        ran.err
    );
    assert_eq!(lexicon(&["same", "(inf)", "(INF)"], "").status, Some(2));
    assert_eq!(
        lexicon(&["same", "--infinite", "(inf)", "(INF)"], "").status,
        Some(0)
    );
}

#[test]
fn record_writes_a_line_for_each_text() {
    let cube = Cd::parse("x4o3o").unwrap().record();
    let line = format!("ok {cube} 210\n");
    let ran = lexicon(&["record", "x4o3o"], "");
    assert_eq!((ran.status, &ran.out[..]), (Some(0), &line[..]));
    // LF alone ends a line, and a CR before it is a space at the end of the text
    let ran = lexicon(&["record"], "x4o3o\nx1o\r\n\nx3o\r\n*a");
    let none = Cd::parse("*a").unwrap().record();
    let expected = format!("{line}no 7 1 1 1\nno 4 0\nno 4 4\nok {none} \n");
    assert_eq!((ran.status, ran.out), (Some(1), expected));
    assert_eq!(
        lexicon(&["record", "-"], "(inf)\nx3o3*a\nx3*c").out,
        "no 23 3\nno 8 1 0\nno 11 0\n"
    );
    assert!(lexicon(&["record", "--infinite"], "x(-INFINITY)3x")
        .out
        .ends_with(" 021\n"));
}

#[test]
fn raw_records_are_bytes() {
    let records: Vec<u8> = ["x4o3o", "x"]
        .iter()
        .flat_map(|text| *Cd::parse(text).unwrap().record().as_bytes())
        .collect();
    let ran = lexicon(&["record", "--raw", "-"], "x4o3o\nx1o\nx\n");
    assert_eq!(ran.status, Some(1));
    assert_eq!(ran.out, String::from_utf8_lossy(&records));
    assert!(
        ran.err.starts_with("-:2:2: no edge has the numbers 1/1\n"),
        "{}",
        ran.err
    );
}
