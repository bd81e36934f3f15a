//! The subcommands of `lexicon shelf`: what they say, and their exit statuses.

mod common;
mod shelf_tools;

use std::{
    fs::{self, File, OpenOptions},
    os::unix::fs::{symlink, MetadataExt, PermissionsExt},
    process::{Command, Stdio},
};

use common::{as_user, Folder, Run};
use lexicon::{Cd, Record};
use shelf_tools::{numbered_as_typed, record, shelf_of, Chance};

const SHELF: [&str; 5] = ["x", "x3o4o", "x5o3o", "(1.5)3q", "x3o3o *b3o"];

fn articles() -> Folder {
    let folder = Folder::new();
    folder.write("articles.shelf", shelf_of(SHELF));
    folder
}

#[test]
fn made_of_a_list() {
    let folder = Folder::new();
    let run = folder.make(
        "articles.shelf",
        b"x3o4o\r\nx\nx3o3o *b3o\r\nx5o3o\n(1.5)3q",
    );
    run.gives(0, "articles.shelf: 5 places\n", "");
    assert_eq!(folder.read("articles.shelf"), shelf_of(SHELF));
    assert_eq!(folder.names(), ["articles.shelf"]);
    folder
        .shelf(["check", "articles.shelf"])
        .gives(0, "articles.shelf: 5 places\n", "");
    let list = "0\tx\n1\t(1.5)3q\n2\tx5o3o\n3\tx3o4o\n4\tx3o3o *b3o\n";
    folder.shelf(["list", "articles.shelf"]).gives(0, list, "");
}

#[test]
fn made_with_the_mode_that_new_files_have() {
    let folder = Folder::new();
    let mut command = Command::new("sh");
    let script = "umask 027; echo x | \"$0\" shelf make articles.shelf";
    command.args(["-c", script, env!("CARGO_BIN_EXE_lexicon")]);
    let run = Run::of(command.current_dir(&folder.0));
    run.gives(0, "articles.shelf: 1 place\n", "");
    let mode = fs::metadata(folder.path("articles.shelf")).unwrap().mode();
    assert_eq!(mode & 0o7777, 0o640);
}

#[test]
fn made_of_figures_that_stand_twice() {
    let folder = Folder::new();
    let out = "-:3: o4o3x is the figure of -:1: x3o4o\n-:4: x6/2o4o is the figure of -:1: x3o4o\n\
               articles.shelf: 2 places\n";
    folder
        .make("articles.shelf", b"x3o4o\nx\no4o3x\nx6/2o4o\n")
        .gives(1, out, "");
    assert_eq!(folder.read("articles.shelf"), shelf_of(["x", "x3o4o"]));
}

#[test]
fn not_made_of_refused_texts() {
    let folder = Folder::new();
    let out = "-:2:2: no edge has the numbers 1/1\n  x1o\n   ^\n  \
               refusal 7. An edge is a number of at least 2, or a fraction greater than 1.\n\
               -:3: x is the figure of -:1: x\n\
               -:4:1: the text ends too soon\n\n  ^\n  \
               refusal 4. Type what is missing, a node after an edge for instance, or remove the spaces at the end.\n\
               articles.shelf: not made\n";
    folder
        .make("articles.shelf", b"x\nx1o\nx\n\r\n")
        .gives(1, out, "");
    let run = folder.make("articles.shelf", b"(inf)3o\n");
    assert!(
        run.status == Some(1) && run.out.contains("refusal 23"),
        "{run:?}"
    );
    assert!(folder.names().is_empty());
    let mut long = vec![b'x'; 10_000_000];
    long.push(b'\n');
    let run = folder.make("articles.shelf", &long);
    assert!(
        run.status == Some(1) && run.out.starts_with("-:1:256: "),
        "{run:?}"
    );
    assert!(folder.names().is_empty());
}

#[test]
fn made_of_nothing() {
    let folder = Folder::new();
    folder
        .make("empty.shelf", b"")
        .gives(0, "empty.shelf: 0 places\n", "");
    assert_eq!(folder.read("empty.shelf"), b"");
    folder
        .shelf(["check", "empty.shelf"])
        .gives(0, "empty.shelf: 0 places\n", "");
    folder.shelf(["list", "empty.shelf"]).gives(0, "", "");
    folder
        .shelf(["find", "empty.shelf", "x"])
        .gives(1, "x: not there, would be place 0\n", "");
    let out = "x: added, place 0\nempty.shelf: 1 place\n";
    folder.shelf(["add", "empty.shelf", "x"]).gives(0, out, "");
}

#[test]
fn made_with_infinite_lengths() {
    let folder = Folder::new();
    let mut command = folder.command(["make", "--infinite", "a.shelf"]);
    folder.write("list", "(inf)3o\n");
    let list = File::open(folder.path("list")).unwrap();
    let run: Run = command.stdin(list).output().unwrap().into();
    run.gives(0, "a.shelf: 1 place\n", "");
    folder
        .shelf(["list", "a.shelf"])
        .gives(0, "0\t(inf)3o\n", "");
    let found = "o3(inf): place 0\n";
    folder
        .shelf(["find", "--infinite", "a.shelf", "o3(inf)"])
        .gives(0, found, "");
    assert_eq!(folder.shelf(["find", "a.shelf", "o3(inf)"]).status, Some(1));
}

#[test]
fn never_made_over_a_file() {
    let folder = articles();
    let said = "lexicon: articles.shelf: is there already, and is left as it is; \
                `lexicon shelf add` adds to a shelf\n";
    folder.make("articles.shelf", b"o\n").gives(2, "", said);
    assert_eq!(folder.read("articles.shelf"), shelf_of(SHELF));
    symlink("nowhere", folder.path("link")).unwrap();
    folder.make("link", b"o\n").fails("link: is there already");
    fs::create_dir(folder.path("folder")).unwrap();
    folder
        .make("folder", b"o\n")
        .fails("folder: is there already");
    folder
        .make("missing/articles.shelf", b"o\n")
        .fails("No such file or directory");
    folder.make("..", b"o\n").fails("no name of a file");
    assert_eq!(folder.names(), ["articles.shelf", "folder", "link"]);
}

#[test]
fn not_made_if_the_list_can_not_be_read() {
    let folder = Folder::new();
    let mut command = folder.command(["make", "articles.shelf"]);
    let run: Run = command
        .stdin(File::open(&folder.0).unwrap())
        .output()
        .unwrap()
        .into();
    run.fails("lexicon: standard input: Is a directory");
    assert!(folder.names().is_empty());
}

#[test]
fn found() {
    let folder = articles();
    let found = "o4o3x: place 3\nx: place 0\n";
    folder
        .shelf(["find", "articles.shelf", "o4o3x", "x"])
        .gives(0, found, "");
    let out = "x3o: not there, would be place 1\nx6/2o4o: place 3\n";
    let err = "TEXT 2:3: the text ends too soon\n  x3\n    ^\n  refusal 4. \
               Type what is missing, a node after an edge for instance, or remove the spaces at the end.\n";
    let run = folder.shelf(["find", "articles.shelf", "x3o", "x3", "x6/2o4o"]);
    run.gives(1, out, err);
}

#[test]
fn added() {
    let folder = articles();
    let out = "x3o3o: added, place 4\no4o: added, place 1\no3x: added, place 2\narticles.shelf: 8 places\n";
    folder
        .shelf(["add", "articles.shelf", "x3o3o", "o4o", "o3x"])
        .gives(0, out, "");
    let mut all = SHELF.to_vec();
    all.extend(["x3o3o", "o4o", "x3o"]);
    assert_eq!(folder.read("articles.shelf"), shelf_of(all));
    assert_eq!(folder.names(), ["articles.shelf"]);
}

#[test]
fn not_added() {
    let folder = articles();
    let there = "o4o3x: already there, place 3: x3o4o\n  \
                 refusal 20. Look for the article that has this figure.\n\
                 articles.shelf: nothing was added\n";
    folder
        .shelf(["add", "articles.shelf", "o", "o4o3x", "o3o"])
        .gives(1, there, "");
    let twice = "TEXT 3: x3o is the figure of TEXT 1: o3x\narticles.shelf: nothing was added\n";
    folder
        .shelf(["add", "articles.shelf", "o3x", "o", "x3o"])
        .gives(1, twice, "");
    let run = folder.shelf(["add", "articles.shelf", "o", "x3"]);
    assert_eq!(
        (run.status, &*run.out),
        (Some(1), "articles.shelf: nothing was added\n")
    );
    assert!(run.err.starts_with("TEXT 2:3: "), "{run:?}");
    folder.shelf(["add", "missing.shelf", "x"]).gives(
        2,
        "",
        "lexicon: missing.shelf: No such file or directory (os error 2); \
         `lexicon shelf make` makes a new shelf\n",
    );
    assert_eq!(folder.read("articles.shelf"), shelf_of(SHELF));
    assert_eq!(folder.names(), ["articles.shelf"]);
}

/// Checks what each command says of a file that is no shelf, and that none changes it.
#[track_caller]
fn refused(bytes: &[u8], said: &str) {
    let folder = Folder::new();
    folder.write("bad.shelf", bytes);
    folder.shelf(["check", "bad.shelf"]).gives(1, said, "");
    folder.shelf(["list", "bad.shelf"]).gives(1, "", said);
    folder.shelf(["find", "bad.shelf", "x"]).gives(1, "", said);
    let nothing = format!("{said}bad.shelf: nothing was added\n");
    folder
        .shelf(["add", "bad.shelf", "o"])
        .gives(1, &nothing, "");
    assert_eq!(folder.read("bad.shelf"), bytes);
    assert_eq!(folder.names(), ["bad.shelf"]);
}

#[test]
fn cut() {
    let whole = shelf_of(SHELF);
    for cut in [1, 369, 371, 739, 1849] {
        let said = format!(
            "bad.shelf: its length, {cut} bytes, is no multiple of 370\n  \
             {} whole places and {} bytes: a shelf that was cut, or no shelf\n  \
             refusal 18. Take the file from a copy, or keep its whole places with \
             `lexicon shelf rescue`: a shelf has 370 bytes a place.\n",
            cut / 370,
            cut % 370
        );
        refused(&whole[..cut], &said);
    }
}

const COPY: &str = "  refusal 19. Take the file from a copy, make it anew with \
                    `lexicon shelf make`, or keep what can be kept with `lexicon shelf rescue`.\n";

#[test]
fn gibberish() {
    let mut bytes = shelf_of(SHELF);
    bytes[2 * Record::LEN + 1] = 0xff;
    let said = format!(
        "bad.shelf: place 2 has no record\n  \
         byte 740 of the file and on: 03 ff 00 00 00 00 00 00 00 00 ...\n  \
         refusal 14: record not the layout of any diagram: bad count, kind, value, fraction or filler\n{COPY}"
    );
    refused(&bytes, &said);
    bytes[0] = 10;
    let run_over = format!(
        "bad.shelf: place 0 has no record\n  \
         byte 0 of the file and on: 0a 02 3f f0 00 00 00 00 00 00 ...\n  \
         refusal 14: record not the layout of any diagram: bad count, kind, value, fraction or filler\n{COPY}"
    );
    refused(&bytes, &run_over);
}

#[test]
fn numbered_badly() {
    let said = format!(
        "bad.shelf: place 1 has no record\n  \
         byte 370 of the file and on: 02 02 3f f0 00 00 00 00 00 00 ...\n  \
         refusal 22: record well laid out, but not the smallest numbering: file the figure's text again\n{COPY}"
    );
    refused(
        &[*record("x").as_bytes(), numbered_as_typed()].concat(),
        &said,
    );
}

#[test]
fn out_of_order() {
    let [point, octahedron] = [record("x"), record("x3o4o")].map(|record| *record.as_bytes());
    let less = "bad.shelf: place 1 is less than the one before, not greater\n  \
                place 0: x3o4o\n  place 1: x\n";
    refused(&[octahedron, point].concat(), &format!("{less}{COPY}"));
    let equal = "bad.shelf: place 2 is equal to the one before, not greater\n  \
                 place 1: x3o4o\n  place 2: x3o4o\n";
    refused(
        &[point, octahedron, octahedron].concat(),
        &format!("{equal}{COPY}"),
    );
}

#[test]
fn unreadable() {
    let folder = Folder::open_to_all();
    fs::create_dir(folder.path("folder")).unwrap();
    let shelf = folder.write("secret.shelf", shelf_of(SHELF));
    fs::set_permissions(&shelf, PermissionsExt::from_mode(0o000)).unwrap();
    for arguments in [&["check"][..], &["list"], &["find", "x"], &["add", "x"]] {
        let with = |file: &'static str| {
            let mut arguments = arguments.to_vec();
            arguments.insert(1, file);
            folder.command(arguments)
        };
        Run::of(&mut with("missing")).fails("lexicon: missing: No such file or directory");
        Run::of(&mut with("folder")).fails("lexicon: folder: Is a directory");
        Run::of(&mut with("folder/x/y")).fails("No such file or directory");
        Run::of(&mut with("secret.shelf/x")).fails("Not a directory");
        Run::of(&mut with("/dev/zero")).fails("lexicon: /dev/zero: this is ");
        let mut secret = as_user(&folder, &mut with("secret.shelf"));
        Run::of(&mut secret).fails("lexicon: secret.shelf: Permission denied");
    }
}

#[test]
fn output_that_can_not_be_written() {
    let folder = articles();
    let full = || OpenOptions::new().write(true).open("/dev/full").unwrap();
    for arguments in [
        &["list", "articles.shelf"][..],
        &["find", "articles.shelf", "x"],
        &["add", "articles.shelf", "o"],
    ] {
        let mut command = folder.command(arguments);
        let run: Run = command
            .stdin(Stdio::null())
            .stdout(full())
            .output()
            .unwrap()
            .into();
        run.fails("lexicon: standard output: No space left on device");
    }
    let all = SHELF.iter().copied().chain(["o"]);
    assert_eq!(folder.read("articles.shelf"), shelf_of(all));
}

const NODES: [&str; 16] = [
    "o",
    "o",
    "o",
    "x",
    "x",
    "s",
    "q",
    "f",
    "v",
    "F",
    "(1.5)",
    "(-0)",
    "(inf)",
    "(2e20)",
    "(123456789e22)",
    "(1e-22)",
];
const EDGES: [&str; 11] = [
    "3",
    "3",
    "3",
    "4",
    "5",
    "5/2",
    "6/4",
    "2",
    " ",
    "4294967295",
    "99/98",
];
const REFERENCES: [&str; 6] = ["*a", "*b", "*c", "*-a", "*-b", "*e"];

/// A text by chance: nodes, edges and references, of which some are refused.
fn text(chance: &mut Chance) -> String {
    let mut text = String::new();
    for _ in 0..chance.below(10) {
        text += chance.of(&NODES);
        text += chance.of(&EDGES);
        if chance.below(5) == 0 {
            text += chance.of(&REFERENCES);
            text += chance.of(&EDGES);
        }
    }
    for _ in 0..chance.below(8) {
        text += chance.of(&REFERENCES);
        text += chance.of(&EDGES);
    }
    text + chance.of(&["x", "o", "*a"])
}

#[test]
fn listed_texts_are_read_to_the_records_that_they_stand_for() {
    let mut chance = Chance(20_261_117);
    let folder = Folder::new();
    let texts: Vec<String> = (0..20_000).map(|_| text(&mut chance)).collect();
    let accepted = texts
        .iter()
        .filter(|text| Cd::parse_with_infinite(text).is_ok());
    let bytes = shelf_of(accepted.map(|text| &**text));
    folder.write("a.shelf", &bytes);
    let list = folder.shelf(["list", "a.shelf"]);
    let lines: Vec<&str> = list.out.lines().collect();
    assert!(lines.len() > 2000, "{}", lines.len());
    let mut untold = 0;
    for (place, (line, bytes)) in lines.iter().zip(bytes.chunks(Record::LEN)).enumerate() {
        let (number, text) = line.split_once('\t').unwrap();
        assert_eq!(number, place.to_string());
        match text.strip_prefix("no text: ") {
            Some(_) => untold += 1, // too long in this order
            None => assert_eq!(record(text).as_bytes(), bytes, "{text}"),
        }
    }
    assert_eq!(lines.len(), bytes.len() / Record::LEN);
    assert!(untold * 100 < lines.len(), "{untold} of {}", lines.len());
}

#[test]
fn listed_without_a_text() {
    let folder = Folder::new();
    let mut snub = *record("s3o").as_bytes();
    let at = snub.iter().position(|&byte| byte == 3).unwrap(); // the kind of a snub node
    snub[at + 1..at + 3].copy_from_slice(&[0x40, 0]); // 2.0
    let mut long = *record("(1.5)").as_bytes();
    long[2..10].copy_from_slice(&0.1_f64.next_up().to_bits().to_be_bytes());
    folder.write("a.shelf", [long, snub].concat());
    let list = "0\tno text: a (0.10000000000000002)\n1\tno text: a o, b s(2.0), a-b 3\n";
    folder.shelf(["list", "a.shelf"]).gives(0, list, "");
}
