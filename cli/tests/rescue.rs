//! `lexicon shelf rescue`: what it keeps and tells, its exit statuses, and that it only reads OLD. How
//! NEW is written is tested in replacement.rs.

mod common;
mod shelf_tools;

use std::{
    fs::{self, OpenOptions},
    os::unix::fs::{symlink, MetadataExt, PermissionsExt},
    path::Path,
    process::{Command, Stdio},
    time::{Duration, SystemTime},
};

use common::{as_user, Folder, Run};
use lexicon::Record;
use shelf_tools::{numbered_as_typed, record, shelf_of, Chance};

/// By rising record.
const SHELF: [&str; 5] = ["x", "(1.5)3q", "x5o3o", "x3o4o", "x3o3o *b3o"];

/// Bytes that are laid out for no diagram.
const GIBBERISH: [u8; Record::LEN] = [255; Record::LEN];

const REFUSAL_14: &str =
    "refusal 14: record not the layout of any diagram: bad count, kind, value, fraction or filler\n";
const REFUSAL_22: &str = "refusal 22: record well laid out, but not the smallest numbering: \
                          file the figure's text again\n";
const UNREADABLE: &str =
    "can't be read: `lexicon shelf find new.shelf TEXT...` tells which texts are missing\n";
const OUT_OF_ORDER: &str = "out of order: still in old.shelf; \
                            `lexicon shelf add new.shelf TEXT...` adds those that are right\n\
                            kept before them, and perhaps damaged and too great:\n";

fn bytes_of(text: &str) -> [u8; Record::LEN] {
    *record(text).as_bytes()
}

/// A folder with this file, which is rescued.
fn with_old(bytes: impl AsRef<[u8]>) -> Folder {
    let folder = Folder::new();
    folder.write("old.shelf", bytes);
    folder
}

fn rescue(folder: &Folder) -> Run {
    folder.shelf(["rescue", "old.shelf", "new.shelf"])
}

/// Checks what is kept of a file, and what is said of it.
#[track_caller]
fn rescued(bytes: &[u8], status: i32, said: &str, kept: &[&str]) {
    let folder = with_old(bytes);
    rescue(&folder).gives(status, said, "");
    assert_eq!(folder.read("new.shelf"), shelf_of(kept.iter().copied()));
    assert_eq!(folder.read("old.shelf"), bytes);
    assert_eq!(folder.names(), ["new.shelf", "old.shelf"]);
}

#[test]
fn a_shelf() {
    let said = "new.shelf: 5 of 5 places kept\n";
    rescued(&shelf_of(SHELF), 0, said, &SHELF);
    rescued(&bytes_of("x"), 0, "new.shelf: 1 of 1 place kept\n", &["x"]);
    rescued(b"", 0, "new.shelf: 0 of 0 places kept\n", &[]);
}

#[test]
fn a_tail() {
    let one = "old.shelf: the last byte is no whole place, and not kept\n\
               new.shelf: 0 of 0 places kept\n";
    rescued(&[0], 1, one, &[]);
    let shelf = shelf_of(SHELF);
    for (len, tail, places) in [(369, 369, 0), (740 + 2, 2, 2), (1849, 369, 4)] {
        let said = format!(
            "old.shelf: the last {tail} bytes are no whole place, and not kept\n\
             new.shelf: {places} of {places} places kept\n"
        );
        rescued(&shelf[..len], 1, &said, &SHELF[..places]);
    }
}

/// Every kind of damage.
#[test]
fn a_damaged_shelf() {
    let places = [
        bytes_of("x"),
        GIBBERISH,
        bytes_of("x5o3o"),
        numbered_as_typed(),
        bytes_of("x3o4o"),
        bytes_of("x5o3o"),
        bytes_of("(1.5)3q"),
        GIBBERISH,
        bytes_of("x3o4o"),
        bytes_of("x3o3o *b3o"),
        bytes_of("x"),
        bytes_of("x3o3o"),
    ];
    let mut bytes = places.concat();
    bytes.extend([7; 123]);
    let said = format!(
        "old.shelf: 8 places not kept:\n   \
         1  can't be read, refusal 14\n   \
         3  can't be read, refusal 22\n   \
         5  out of order, equal to place 2\n   \
         6  out of order, less than place 4\t(1.5)3q\n   \
         7  can't be read, refusal 14\n   \
         8  out of order, equal to place 4\n  \
         10  out of order, equal to place 0\n  \
         11  out of order, less than place 9\tx3o3o\n\
         {REFUSAL_14}{REFUSAL_22}{UNREADABLE}{OUT_OF_ORDER}  place 4: x3o4o\n  place 9: x3o3o *b3o\n\
         old.shelf: the last 123 bytes are no whole place, and not kept\n\
         new.shelf: 4 of 12 places kept\n"
    );
    let kept = ["x", "x5o3o", "x3o4o", "x3o3o *b3o"];
    rescued(&bytes, 1, &said, &kept);
}

#[test]
fn nothing_that_can_be_kept() {
    let said = format!(
        "old.shelf: 2 places not kept:\n  0  can't be read, refusal 14\n  1  can't be read, refusal 22\n\
         {REFUSAL_14}{REFUSAL_22}{UNREADABLE}new.shelf: 0 of 2 places kept\n"
    );
    let bytes = [GIBBERISH, numbered_as_typed()].concat();
    rescued(&bytes, 1, &said, &[]);
}

#[test]
fn equal_neighbours() {
    let said = "old.shelf: 1 place not kept:\n  1  out of order, equal to place 0\n\
                new.shelf: 2 of 3 places kept\n";
    let bytes = [bytes_of("x"), bytes_of("x"), bytes_of("x3o")].concat();
    rescued(&bytes, 1, said, &["x", "x3o"]);
}

/// A place that is damaged, read all the same and too great: the good ones behind it can be added
/// again.
#[test]
fn a_place_that_is_too_great() {
    let texts: Vec<String> = (3..15).map(|n| format!("x{n}o")).collect();
    let texts: Vec<&str> = texts.iter().map(|text| &**text).collect();
    let mut bytes = shelf_of(texts.iter().copied());
    bytes[Record::LEN..2 * Record::LEN].copy_from_slice(&bytes_of("x13o"));
    let folder = with_old(bytes);
    let run = rescue(&folder);
    let rows = (2..10).map(|place| format!("{place:4}  out of order, less than place 1"));
    let rows = rows.zip(5..).map(|(row, n)| format!("{row}\tx{n}o\n"));
    let rows: String = rows.collect();
    let said = format!(
        "old.shelf: 9 places not kept:\n{rows}  10  out of order, equal to place 1\n\
         {OUT_OF_ORDER}  place 1: x13o\nnew.shelf: 3 of 12 places kept\n"
    );
    run.gives(1, &said, "");
    assert_eq!(folder.read("new.shelf"), shelf_of(["x3o", "x13o", "x14o"]));
    let mut add = folder.command(["add", "new.shelf", "x4o"]);
    let cut = run.out.lines().filter_map(|line| line.split('\t').nth(1));
    assert_eq!(Run::of(add.args(cut)).status, Some(0));
    assert_eq!(folder.read("new.shelf"), shelf_of(texts));
}

/// As the help tells.
#[test]
fn made_anew_without_a_wrong_record() {
    let texts = ["x3o", "x5o", "x6o", "x3o3o *b3o"];
    let mut bytes = shelf_of(["x3o", "x4o", "x5o", "x6o", "x3o3o *b3o"]);
    bytes[Record::LEN..2 * Record::LEN].copy_from_slice(&bytes_of("x3o3x"));
    let folder = with_old(bytes);
    folder.write("report", rescue(&folder).out);
    let run = folder.script(
        "(lexicon shelf list new.shelf; cat report) | cut -sf 2 | grep -vxF x3o3x \
         | lexicon shelf make newer.shelf",
    );
    run.gives(0, "newer.shelf: 4 places\n", "");
    assert_eq!(folder.read("newer.shelf"), shelf_of(texts));
}

#[test]
fn a_record_without_a_text() {
    let mut snub = bytes_of("s3o");
    let at = snub.iter().position(|&byte| byte == 3).unwrap(); // the kind of a snub node
    snub[at + 1..at + 3].copy_from_slice(&[0x40, 0]); // 2.0
    let said = format!(
        "old.shelf: 1 place not kept:\n  \
         1  out of order, less than place 0\tno text: a o, b s(2.0), a-b 3\n\
         {OUT_OF_ORDER}  place 0: x3o4o\nnew.shelf: 1 of 2 places kept\n"
    );
    let bytes = [bytes_of("x3o4o"), snub].concat();
    rescued(&bytes, 1, &said, &["x3o4o"]);
}

/// Files by chance: what can be read is kept, or has the row of an equal one, or has a text behind
/// a tab.
#[test]
fn no_readable_record_is_lost() {
    let mut chance = Chance(20_261_118);
    for _ in 0..50 {
        let places = (0..chance.below(40)).map(|_| match chance.below(8) {
            0 => GIBBERISH,
            1 => numbered_as_typed(),
            _ => bytes_of(&format!("x{}o", 3 + chance.below(30))),
        });
        let places: Vec<_> = places.collect();
        let folder = with_old(places.concat());
        let run = rescue(&folder);
        assert!(run.status <= Some(1) && run.err.is_empty(), "{run:?}");
        assert_eq!(folder.shelf(["check", "new.shelf"]).status, Some(0));

        let list = folder.shelf(["list", "new.shelf"]).out;
        let lines = list.lines().chain(run.out.lines());
        let texts: Vec<&str> = lines.filter_map(|line| line.split('\t').nth(1)).collect();
        let readable = places.iter().flat_map(|bytes| Record::from_bytes(bytes));
        let mut readable: Vec<Record> = readable.collect();
        readable.sort();
        readable.dedup();
        let readable: Vec<u8> = readable.iter().flat_map(|read| *read.as_bytes()).collect();
        assert_eq!(shelf_of(texts), readable);
    }
}

/// All that a touch would change.
fn state(path: &Path) -> impl PartialEq + std::fmt::Debug {
    let file = fs::symlink_metadata(path).unwrap();
    let times = [
        (file.mtime(), file.mtime_nsec()),
        (file.ctime(), file.ctime_nsec()),
    ];
    (
        fs::read(path).unwrap(),
        file.ino(),
        file.nlink(),
        file.mode(),
        times,
    )
}

/// Bytes, mode and times stay, and a lock is neither waited for nor taken.
#[test]
fn the_old_file_is_only_read() {
    let folder = with_old([bytes_of("x3o"), bytes_of("x"), GIBBERISH].concat());
    let old = folder.path("old.shelf");
    let file = OpenOptions::new().write(true).open(&old).unwrap();
    let then = SystemTime::UNIX_EPOCH + Duration::from_secs(1_000_000_000);
    file.set_modified(then).unwrap();
    fs::set_permissions(&old, PermissionsExt::from_mode(0o444)).unwrap();
    file.lock().unwrap();
    let before = state(&old);
    assert_eq!(rescue(&folder).status, Some(1));
    assert_eq!(state(&old), before);
    assert_eq!(folder.names(), ["new.shelf", "old.shelf"]);
    assert_eq!(folder.read("new.shelf"), shelf_of(["x3o"]));
}

#[test]
fn through_a_link() {
    let folder = with_old(shelf_of(SHELF));
    symlink("old.shelf", folder.path("link")).unwrap();
    folder
        .shelf(["rescue", "link", "new.shelf"])
        .gives(0, "new.shelf: 5 of 5 places kept\n", "");
    assert_eq!(folder.read("new.shelf"), shelf_of(SHELF));
}

#[test]
fn made_with_the_mode_that_new_files_have() {
    let folder = with_old(shelf_of(SHELF));
    let old = folder.path("old.shelf");
    fs::set_permissions(&old, PermissionsExt::from_mode(0o600)).unwrap();
    let run = folder.script("umask 027; lexicon shelf rescue old.shelf new.shelf");
    run.gives(0, "new.shelf: 5 of 5 places kept\n", "");
    let new = fs::metadata(folder.path("new.shelf")).unwrap();
    assert_eq!(new.mode() & 0o7777, 0o640);
}

/// No name of the old file, and no other file.
#[test]
fn never_made_over_a_file() {
    let folder = with_old(GIBBERISH);
    let old = folder.path("old.shelf");
    fs::create_dir(folder.path("folder")).unwrap();
    folder.write("other.shelf", shelf_of(SHELF));
    fs::hard_link(&old, folder.path("hard")).unwrap();
    symlink("old.shelf", folder.path("soft")).unwrap();
    symlink("nowhere", folder.path("dangling")).unwrap();
    let before = (folder.names(), state(&old));
    for new in [
        "old.shelf",
        "./old.shelf",
        "folder/../old.shelf",
        "hard",
        "soft",
        "dangling",
        "other.shelf",
        "folder",
    ] {
        let said = format!(
            "lexicon: {new}: is there already, and is left as it is; \
             NEW must be a name that no file has\n"
        );
        folder
            .shelf(["rescue", "old.shelf", new])
            .gives(2, "", &said);
        // before the old file is read
        folder.shelf(["rescue", "folder", new]).gives(2, "", &said);
        assert_eq!((folder.names(), state(&old)), before);
    }
    assert_eq!(folder.read("other.shelf"), shelf_of(SHELF));
    folder
        .shelf(["rescue", "old.shelf", "missing/new.shelf"])
        .fails("missing/new.shelf: No such file or directory");
    folder
        .shelf(["rescue", "old.shelf", ".."])
        .fails("no name of a file");
}

/// What a killed run has left can be rescued, but not to the name whose next run removes it.
#[test]
fn the_file_that_a_killed_run_left() {
    let left = ".new.shelf.lexicon-new";
    let folder = Folder::new();
    let path = folder.write(left, shelf_of(SHELF));
    fs::hard_link(&path, folder.path("hard")).unwrap();
    symlink("hard", folder.path("soft")).unwrap();
    let before = (folder.names(), state(&path));
    for old in [left, "hard", "soft"] {
        folder
            .shelf(["rescue", old, "new.shelf"])
            .fails("would be removed; give NEW another name");
        assert_eq!((folder.names(), state(&path)), before);
    }
    let said = "other.shelf: 5 of 5 places kept\n";
    folder
        .shelf(["rescue", left, "other.shelf"])
        .gives(0, said, "");
    let said = "new.shelf: 5 of 5 places kept\n";
    folder
        .shelf(["rescue", "other.shelf", "new.shelf"])
        .gives(0, said, "");
    assert_eq!(folder.names(), ["hard", "new.shelf", "other.shelf", "soft"]);
}

#[test]
fn an_old_file_that_can_not_be_read() {
    let folder = Folder::open_to_all();
    fs::create_dir(folder.path("folder")).unwrap();
    let secret = folder.write("secret.shelf", shelf_of(SHELF));
    fs::set_permissions(&secret, PermissionsExt::from_mode(0o000)).unwrap();
    let of = |old: &str| folder.command(["rescue", old, "new.shelf"]);
    Run::of(&mut of("missing")).fails("lexicon: missing: No such file or directory");
    Run::of(&mut of("folder")).fails("lexicon: folder: Is a directory");
    Run::of(&mut of("secret.shelf/x")).fails("Not a directory");
    Run::of(&mut of("/dev/zero")).fails("lexicon: /dev/zero: this is a device");
    let mut user = as_user(&folder, &mut of("secret.shelf"));
    Run::of(&mut user).fails("lexicon: secret.shelf: Permission denied");
    assert_eq!(folder.names(), ["folder", "program", "secret.shelf"]);
}

/// The new shelf is there then.
#[test]
fn output_that_can_not_be_written() {
    let folder = with_old([GIBBERISH, bytes_of("x")].concat());
    let full = OpenOptions::new().write(true).open("/dev/full").unwrap();
    let mut command = folder.command(["rescue", "old.shelf", "new.shelf"]);
    let run: Run = command.stdout(full).output().unwrap().into();
    run.fails("lexicon: standard output: No space left on device");
    assert_eq!(folder.read("new.shelf"), shelf_of(["x"]));
    let closed = folder.script("lexicon shelf rescue old.shelf other.shelf >&-");
    closed.fails("lexicon: standard output: Bad file descriptor");
    assert_eq!(folder.read("other.shelf"), shelf_of(["x"]));
}

/// A reader of the output that goes away.
#[test]
fn output_that_nobody_reads() {
    let places: Vec<u8> = (3..10_003)
        .rev()
        .flat_map(|n| bytes_of(&format!("x{n}o")))
        .collect();
    let folder = with_old(places);
    let mut command = Command::new("bash");
    let script = "\"$0\" shelf rescue old.shelf new.shelf | head -n 1; echo ${PIPESTATUS[0]}";
    command
        .args(["-c", script, common::LEXICON])
        .current_dir(&folder.0);
    let run = Run::of(command.stdin(Stdio::null()));
    run.gives(0, "old.shelf: 9999 places not kept:\n2\n", "");
    assert_eq!(folder.read("new.shelf"), shelf_of(["x10002o"]));
}
