//! Each command tells what it does, with an example, and the example's output is what it says.

mod common;

use common::{lexicon, Folder};

const COMMANDS: [&[&str]; 11] = [
    &["check"],
    &["same"],
    &["show"],
    &["draw"],
    &["record"],
    // one after another on one shelf
    &["shelf", "make"],
    &["shelf", "check"],
    &["shelf", "find"],
    &["shelf", "list"],
    &["shelf", "add"],
    &["shelf", "rescue"],
];

/// The examples that a command's help has: what is typed, and what is written then.
fn examples(command: &[&str]) -> Vec<(String, String)> {
    let ran = lexicon(&[&["help"], command].concat(), "");
    assert_eq!((ran.status, &ran.err[..]), (Some(0), ""), "{command:?}");
    let (_, after) = ran.out.split_once("Example:\n").unwrap();
    let mut examples: Vec<(String, String)> = vec![];
    for line in after
        .lines()
        .map(|line| line.strip_prefix("  ").unwrap_or(line))
    {
        match (line.strip_prefix("$ "), examples.last_mut()) {
            (Some(typed), _) => examples.push((typed.into(), String::new())),
            (None, Some((_, written))) => written.extend([line, "\n"]),
            (None, None) => panic!("{command:?}: {line}"),
        }
    }
    examples
}

#[test]
fn examples_are_true() {
    let folder = Folder::new();
    for command in COMMANDS {
        let examples = examples(command);
        assert!(!examples.is_empty(), "{command:?}");
        for (typed, written) in examples {
            let ran = folder.script(&typed);
            assert_eq!(ran.out.trim_end(), written.trim_end(), "{typed}");
            assert_eq!(ran.err, "", "{typed}");
        }
    }
    assert!(folder.path("e7.svg").is_file());
}

#[test]
fn help_fits_a_terminal() {
    for command in COMMANDS.iter().chain(&[&[][..], &["shelf"]]) {
        let ran = lexicon(&[command, &["--help"][..]].concat(), "");
        assert_eq!(ran.status, Some(0), "{command:?}");
        let wide = ran.out.lines().find(|line| line.chars().count() > 100);
        assert_eq!(wide, None, "{command:?}");
    }
}
