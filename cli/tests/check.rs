//! `lexicon check`: what it finds, and files that can't be read.

mod common;

use std::{fs, process::Command};

use common::{as_user, lexicon, script, Folder, Run, LEXICON};

const NOTHING: &str = "0 lines: 0 accepted, 0 refused; 0 figures, 0 of them more than once\n";

/// What is told of a list that is read from standard input.
fn check(list: impl AsRef<[u8]>) -> Run {
    lexicon(&["check", "-"], list)
}

fn last(ran: &Run) -> &str {
    ran.out.lines().last().unwrap()
}

#[test]
fn the_sample_is_told_as_the_readme_shows_it() {
    let sample = concat!(env!("CARGO_MANIFEST_DIR"), "/..");
    let ran = script(sample.as_ref(), "lexicon check --notes cli/sample.txt");
    assert_eq!((ran.status, &ran.err[..]), (Some(1), ""));
    let readme = fs::read_to_string(concat!(env!("CARGO_MANIFEST_DIR"), "/../README.md")).unwrap();
    let block = format!(
        "```text\n$ lexicon check --notes cli/sample.txt\n{}```\n",
        ran.out
    );
    assert!(readme.contains(&block), "{block}");
}

#[test]
fn refusals_are_told_as_a_compiler_tells_them() {
    let ran = check("x3_o\nx3o4\nx3o3*a\nx3*b\nx(3\n");
    assert_eq!(ran.status, Some(1));
    let expected = "\
-:1:3: this symbol does not fit here
  x3_o
    ^
  refusal 6. Type a node (o, x, s, another letter of a length, or a length in parentheses), an edge, or a reference such as *a; nan is no length.
-:2:5: the text ends too soon
  x3o4
      ^
  refusal 4. Type what is missing, a node after an edge for instance, or remove the spaces at the end.
-:3:1: the nodes b and a are joined twice
  x3o3*a
  refusal 8. Join two nodes by one edge only.
-:4:1: edge 1, counted from 1, goes to a node that the text lacks
  x3*b
  refusal 11. Let each reference name a node that the text has.
-:5:4: a parenthesis is not closed
  x(3
     ^
  refusal 3. Close the length with ).
5 lines: 0 accepted, 5 refused; 0 figures, 0 of them more than once
";
    assert_eq!(ran.out, expected);
}

#[test]
fn lines_that_are_one_figure_meet_across_files() {
    let folder = Folder::new();
    folder.write("a.txt", "x3o4o\nx\nx5/2o5o\n");
    folder.write("b.txt", "o5o5/2x\no4o3x\nx6/2o4o");
    let ran = folder.script("lexicon check a.txt b.txt");
    let expected = "\
3 lines are one figure, their nodes in corresponding order:
  a.txt:1: x3o4o    a b c
  b.txt:2: o4o3x    c b a
  b.txt:3: x6/2o4o  a b c
2 lines are one figure, their nodes in corresponding order:
  a.txt:3: x5/2o5o  a b c
  b.txt:1: o5o5/2x  c b a
6 lines: 6 accepted, 0 refused; 3 figures, 2 of them more than once
";
    assert_eq!((ran.status, &ran.out[..]), (Some(1), expected));
}

#[test]
fn nothing_wrong_is_status_0() {
    assert_eq!(check("").out, NOTHING);
    assert_eq!(check("").status, Some(0));
    assert_eq!(check("x\no").status, Some(0)); // without a last LF
    assert_eq!(
        last(&check("\n")),
        "1 line: 0 accepted, 1 refused; 0 figures, 0 of them more than once"
    );
}

#[test]
fn a_tab_ends_a_text_only_where_notes_are_wished_for() {
    assert_eq!(check("x\t3o\n").status, Some(0));
    let list = "x\t3o\nx\ty\tz\nx_\t \u{1b}[31mred\n";
    let ran = lexicon(&["check", "--notes", "-"], list);
    let expected = "\
-:3:2: this symbol does not fit here
  x_   \u{fffd}[31mred
   ^
  refusal 6. Type a node (o, x, s, another letter of a length, or a length in parentheses), an edge, or a reference such as *a; nan is no length.
2 lines are one figure, their nodes in corresponding order:
  -:1: x  a  3o
  -:2: x  a  y z
3 lines: 2 accepted, 1 refused; 1 figure, 1 of them more than once
";
    assert_eq!(ran.out, expected);
}

#[test]
fn cr_lf_ends_lines_and_is_told() {
    let ran = check("x3o\r\nx4o\r\nx5o\r");
    assert!(ran.out.starts_with("-:3:5: the text ends too soon\n"));
    let totals = "3 lines: 2 accepted, 1 refused; 2 figures, 0 of them more than once; CR LF taken as the end of 2 lines";
    assert_eq!(last(&ran), totals);
}

#[test]
fn bytes_above_127_are_refused_where_they_stand() {
    for (list, shown) in [
        (&b"x3\xff"[..], "  x3\u{fffd}\n    ^\n"),
        ("x3ö".as_bytes(), "  x3ö\n    ^\n"),
    ] {
        let ran = check(list);
        assert!(
            ran.out.starts_with("-:1:3: this byte is not ASCII\n"),
            "{}",
            ran.out
        );
        assert!(ran.out.contains(shown), "{}", ran.out);
    }
}

#[test]
fn long_lines_are_cut_where_they_are_shown() {
    for length in [256, 4095, 4096, 4097, 1 << 20, 10 << 20] {
        let mut list = b"o".repeat(length);
        list.extend_from_slice(b"\nx\n");
        let ran = check(list);
        assert!(
            ran.out
                .starts_with("-:1:256: the text has more than 255 bytes\n"),
            "{}",
            ran.out
        );
        assert!(ran.out.len() < 400, "{}", ran.out);
        assert_eq!(
            last(&ran),
            "2 lines: 1 accepted, 1 refused; 1 figure, 0 of them more than once"
        );
    }
}

#[test]
fn a_million_lines() {
    let ran = check("x3o4o\no4o3x\n".repeat(500_000));
    assert_eq!(
        last(&ran),
        "1000000 lines: 1000000 accepted, 0 refused; 1 figure, 1 of them more than once"
    );
    assert_eq!(ran.out.lines().count(), 1_000_002);
}

#[test]
fn files_that_cannot_be_read_are_told_and_the_others_checked() {
    let folder = Folder::new();
    folder.write("good", "x\n");
    let ran = folder.script("lexicon check missing good . good");
    assert_eq!(ran.status, Some(2));
    assert_eq!(
        ran.err,
        "lexicon: missing: No such file or directory (os error 2)\nlexicon: .: Is a directory (os error 21)\n"
    );
    assert_eq!(
        last(&ran),
        "2 lines: 2 accepted, 0 refused; 1 figure, 1 of them more than once"
    );
    assert_eq!(folder.script("lexicon check - <.").status, Some(2));
}

#[test]
fn a_file_without_permission() {
    let folder = Folder::open_to_all();
    folder.write("list", "x\n");
    folder.script("chmod 0 list").gives(0, "", "");
    let mut check = Command::new(LEXICON);
    let run = Run::of(&mut as_user(&folder, check.args(["check", "list"])));
    assert_eq!((run.status, &run.out[..]), (Some(2), NOTHING));
    assert_eq!(run.err, "lexicon: list: Permission denied (os error 13)\n");
}

#[test]
fn output_that_cannot_be_written_is_a_failure() {
    let folder = Folder::new();
    for command in ["check list", "record x", "same x x", "show x"] {
        folder.write("list", "x\n");
        let full = folder.script(&format!("lexicon {command} >/dev/full"));
        assert_eq!(full.status, Some(2), "{command}");
        assert_eq!(
            full.err,
            "lexicon: standard output: No space left on device (os error 28)\n"
        );
        let closed = folder.script(&format!("lexicon {command} >&-"));
        assert_eq!(closed.status, Some(2), "{command}");
        assert_eq!(
            closed.err,
            "lexicon: standard output: Bad file descriptor (os error 9)\n"
        );
        assert_eq!(
            folder
                .script(&format!("lexicon {command} >/dev/null"))
                .status,
            Some(0)
        );
    }
    folder.write("list", "x_\n".repeat(100_000));
    for command in ["check list", "check --format json list", "record <list"] {
        let head = folder.script(&format!(
            "lexicon {command} | head -1; exit ${{PIPESTATUS[0]}}"
        ));
        assert_eq!((head.status, &head.err[..]), (Some(2), ""), "{command}");
    }
}

#[test]
fn bad_usage_is_status_2() {
    for arguments in [
        &["check"][..],
        &["chek", "-"],
        &["check", "--format", "xml", "-"],
        &[],
    ] {
        let ran = lexicon(arguments, "");
        assert_eq!((ran.status, &ran.out[..]), (Some(2), ""), "{arguments:?}");
        assert!(!ran.err.is_empty(), "{arguments:?}");
    }
}

#[test]
fn infinite_lengths_are_taken_where_they_are_wished_for() {
    assert!(check("(inf)\n").out.contains("refusal 23."));
    assert_eq!(
        lexicon(&["check", "--infinite", "-"], "(inf)\n").status,
        Some(0)
    );
}

#[test]
fn json_tells_the_same() {
    let ran = lexicon(
        &["check", "--notes", "--format", "json", "-"],
        "x3o4o\tfirst\nx1o\no4o3x\r\n",
    );
    assert_eq!(ran.status, Some(1));
    let findings: Vec<serde_json::Value> = ran
        .out
        .lines()
        .map(|line| serde_json::from_str(line).unwrap())
        .collect();
    let expected = serde_json::json!([
        {
            "finding": "refused", "file": "-", "line": 2, "column": 2, "text": "x1o", "note": "",
            "refusal": 7, "fields": [1, 1, 1], "message": "no edge has the numbers 1/1",
            "advice": "An edge is a number of at least 2, or a fraction greater than 1.",
        },
        {
            "finding": "one figure",
            "headwords": [
                { "file": "-", "line": 1, "text": "x3o4o", "note": "first", "nodes": [0, 1, 2] },
                { "file": "-", "line": 3, "text": "o4o3x", "note": "", "nodes": [2, 1, 0] },
            ],
        },
        { "finding": "totals", "lines": 3, "accepted": 2, "refused": 1, "figures": 1, "repeated": 1, "cr lf": 1 },
    ]);
    assert_eq!(serde_json::Value::Array(findings), expected);
}
