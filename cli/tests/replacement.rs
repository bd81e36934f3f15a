//! Replacements of a shelf file, and new shelf files, made of a list or rescued, that are killed, fail,
//! run into each other or into other programs: the file is always the old shelf or the new one, and
//! the next run leaves no stray file.

mod common;
mod shelf_tools;

use std::{
    cmp::Ordering,
    fs::{self, File},
    io::{BufRead, BufReader},
    os::unix::fs::{chown, symlink, MetadataExt, PermissionsExt},
    process::{Child, Command, Stdio},
    thread,
    time::Duration,
};

use common::{as_user, is_root, Folder, Run};
use shelf_tools::{
    access,
    faults::{at, before_each, calls, first, Fault},
    shelf_of, Chance,
};

const NAME: &str = "articles.shelf";
const ADD: [&str; 5] = ["add", NAME, "x3o4o", "x", "x3o3o *b3o"];

/// The texts of a shelf of 200 places, none of which `ADD` adds.
fn texts() -> Vec<String> {
    (3..203).map(|n| format!("x{n}o")).collect()
}

fn old() -> Vec<u8> {
    shelf_of(texts().iter().map(|text| &**text))
}

fn new() -> Vec<u8> {
    shelf_of(
        texts()
            .iter()
            .map(|text| &**text)
            .chain(ADD.into_iter().skip(2)),
    )
}

/// A folder that has the old shelf.
fn with_old() -> Folder {
    let folder = Folder::new();
    folder.write(NAME, old());
    folder
}

/// A folder with the old shelf, and the calls of a run that adds to it.
fn articles() -> (Folder, Vec<String>) {
    let folder = with_old();
    let calls = calls(&mut folder.command(ADD));
    assert_eq!(folder.read(NAME), new());
    (folder, calls)
}

/// Adds again after a fault: all is well, or all is there already, and nothing else is left.
#[track_caller]
fn next_run(folder: &Folder, what: &str) {
    let before = folder.read(NAME);
    let run = folder.shelf(ADD);
    let status = i32::from(before == new());
    assert_eq!(run.status, Some(status), "{what}: {run:?}");
    assert!(folder.read(NAME) == new(), "{what}");
    assert_eq!(folder.names(), [NAME], "{what}");
}

/// No fault shows whether bytes are on disk before they get their name, so the calls are looked at.
#[test]
fn flushed_in_order() {
    let (folder, calls) = articles();
    let temporary = format!(
        "open64 {}",
        folder.path(".articles.shelf.lexicon-new").display()
    );
    let opened = first(&calls, &temporary);
    let names: Vec<&str> = calls[opened..]
        .iter()
        .filter(|call| !call.starts_with("statx"))
        .map(|call| call.split(' ').next().unwrap())
        .collect();
    let order = [
        "flock", "fchmod", "write", "fsync", "rename", "fsync", "write",
    ];
    assert_eq!(names, order);
    let folder_opened = format!("open64 {}", folder.0.display());
    assert_eq!(
        calls.iter().filter(|call| **call == folder_opened).count(),
        1
    );
}

#[test]
fn killed_at_each_step_of_adding() {
    let (folder, calls) = articles();
    let rename = first(&calls, "rename");
    for (n, call) in (1..).zip(&calls) {
        for fault in [Fault::KillBefore, Fault::KillAfter] {
            let what = format!("{fault:?} of call {n}, {call}");
            folder.write(NAME, old());
            let run = at(&mut folder.command(ADD), n, fault);
            assert_eq!(run.status, None, "{what}: {run:?}");
            let replaced = n > rename || n == rename && matches!(fault, Fault::KillAfter);
            let bytes = folder.read(NAME);
            assert!(bytes == if replaced { new() } else { old() }, "{what}");
            next_run(&folder, &what);
        }
    }
}

/// A killed run leaves its temporary file; one that clears it up is killed too, at each step.
#[test]
fn killed_at_each_step_of_clearing_up() {
    let (folder, calls) = articles();
    let stray = || {
        folder.write(NAME, old());
        let run = at(
            &mut folder.command(ADD),
            first(&calls, "rename"),
            Fault::KillBefore,
        );
        assert_eq!((run.status, folder.names().len()), (None, 2));
    };
    stray();
    let clearing = shelf_tools::faults::calls(&mut folder.command(ADD));
    assert!(first(&clearing, "unlink") < first(&clearing, "rename"));
    for (n, call) in (1..).zip(&clearing) {
        for fault in [Fault::KillBefore, Fault::KillAfter] {
            let what = format!("{fault:?} of call {n}, {call}");
            stray();
            let run = at(&mut folder.command(ADD), n, fault);
            assert_eq!(run.status, None, "{what}: {run:?}");
            let bytes = folder.read(NAME);
            assert!(bytes == old() || bytes == new(), "{what}");
            next_run(&folder, &what);
        }
    }
}

#[test]
fn killed_a_hundred_times_by_chance() {
    let folder = Folder::new();
    let mut chance = Chance(7);
    let mut span = 10_000; // microseconds, which soon become about those of a run
    let mut killed = 0;
    while killed < 100 {
        folder.write(NAME, old());
        let mut command = folder.command(ADD);
        let mut child = command.stdout(Stdio::null()).spawn().unwrap();
        thread::sleep(Duration::from_micros(chance.below(span) as u64));
        child.kill().unwrap();
        if child.wait().unwrap().code().is_none() {
            killed += 1;
            span += span / 10;
        } else {
            span -= span / 10;
        }
        let bytes = folder.read(NAME);
        assert!(bytes == old() || bytes == new());
        next_run(&folder, "killed by chance");
    }
}

#[test]
fn failing_at_each_step_of_adding() {
    let (folder, calls) = articles();
    let rename = first(&calls, "rename");
    for (n, call) in (1..).zip(&calls) {
        for errno in [libc::ENOSPC, libc::EIO, libc::EACCES] {
            let what = format!("error {errno} of call {n}, {call}");
            folder.write(NAME, old());
            let run = at(&mut folder.command(ADD), n, Fault::Fail(errno));
            let bytes = folder.read(NAME);
            match run.status {
                // A second look at the file's length, to read it at once, may fail; and if the last
                // look does, it is as if another program had replaced the file.
                Some(0) => assert!(
                    call.starts_with("statx") && bytes == new(),
                    "{what}: {run:?}"
                ),
                Some(2) => assert!(bytes == if n > rename { new() } else { old() }, "{what}"),
                _ => panic!("{what}: {run:?}"),
            }
            let said = run.err.lines().count();
            assert_eq!(said, usize::from(run.status == Some(2)), "{what}: {run:?}");
            assert_eq!(folder.names(), [NAME], "{what}");
        }
    }
}

#[test]
fn what_is_said_of_failures() {
    let (folder, calls) = articles();
    let full = |call: &str, said: &str| {
        folder.write(NAME, old());
        let n = first(&calls, call);
        at(&mut folder.command(ADD), n, Fault::Fail(libc::ENOSPC)).fails(said);
    };
    full("flock", "articles.shelf: No space left");
    full(
        "write",
        "articles.shelf: the new shelf: No space left on device (os error 28); nothing was added",
    );
    full(
        "fsync",
        "the new shelf: No space left on device (os error 28); nothing was added",
    );
    full(
        "rename",
        "the renaming of the new shelf: No space left on device (os error 28); nothing was added",
    );
    folder.write(NAME, old());
    let flush = first(&calls, "rename") + 1;
    assert!(calls[flush - 1].starts_with("fsync"));
    let run = at(&mut folder.command(ADD), flush, Fault::Fail(libc::EIO));
    run.fails("the new shelf is in place, but may not outlive a power cut");
    assert!(folder.read(NAME) == new());
}

#[test]
fn interrupted_at_each_step() {
    let (folder, calls) = articles();
    let tried_again = ["open64", "flock", "read", "write", "fsync"];
    for (n, call) in (1..).zip(&calls) {
        if tried_again.iter().any(|name| call.starts_with(name)) {
            folder.write(NAME, old());
            let run = at(&mut folder.command(ADD), n, Fault::Fail(libc::EINTR));
            assert_eq!(run.status, Some(0), "call {n}, {call}: {run:?}");
            assert!(folder.read(NAME) == new() && folder.names() == [NAME]);
        }
    }
}

#[test]
fn out_of_space_after_half_of_the_bytes() {
    let (folder, calls) = articles();
    folder.write(NAME, old());
    let run = at(
        &mut folder.command(ADD),
        first(&calls, "write"),
        Fault::Full,
    );
    run.fails("the new shelf: No space left on device");
    assert!(folder.read(NAME) == old());
    assert_eq!(folder.names(), [NAME]);
    next_run(&folder, "out of space");
}

/// Runs `lexicon shelf` on a file system that has room for one shelf of 74,000 bytes, but not for two.
fn on_a_small_file_system(arguments: &[&str]) -> Option<Run> {
    // A mount that no other process sees, and that ends with the shell.
    const SCRIPT: &str = r#"
        if ! mount -t tmpfs -o size=128k small small; then echo no mount; exit 77; fi
        cp old small/articles.shelf && cd small || exit 99
        "$@"
        status=$?
        cmp articles.shelf ../old && test "$(ls -A)" = articles.shelf || exit 98
        exit $status"#;
    let folder = Folder::new();
    folder.write("old", old());
    fs::create_dir(folder.path("small")).unwrap();
    let mut command = Command::new("unshare");
    command.args(["--map-root-user", "--mount", "sh", "-c", SCRIPT, "sh"]);
    command
        .args([env!("CARGO_BIN_EXE_lexicon"), "shelf"])
        .args(arguments)
        .stdin(Stdio::null())
        .current_dir(&folder.0);
    let run = Run::of(&mut command);
    if run.status == Some(77) || run.err.starts_with("unshare:") {
        println!("no mount is allowed here; only the interposed calls ran out of space: {run:?}");
        return None;
    }
    Some(run)
}

#[test]
fn out_of_space_on_a_small_file_system() {
    if let Some(run) = on_a_small_file_system(&ADD) {
        run.fails("the new shelf: No space left on device");
    }
    if let Some(run) = on_a_small_file_system(&["rescue", NAME, "other.shelf"]) {
        run.fails("other.shelf: No space left on device (os error 28); it was not made");
    }
}

#[test]
fn out_of_a_file_size_limit() {
    let folder = with_old();
    folder.write("list", texts().join("\n"));
    let limited = |arguments: &str| {
        let script = format!("ulimit -f 40; \"$0\" shelf {arguments}; exit $?");
        let mut command = Command::new("sh");
        command.args(["-c", &script, env!("CARGO_BIN_EXE_lexicon")]);
        Run::of(command.stdin(Stdio::null()).current_dir(&folder.0))
    };
    limited("add articles.shelf x3o4o x 'x3o3o *b3o'").fails("the new shelf: File too large");
    assert!(folder.read(NAME) == old());
    for making in [
        "make other.shelf <list",
        "rescue articles.shelf other.shelf",
    ] {
        limited(making).fails("other.shelf: File too large (os error 27); it was not made");
    }
    assert_eq!(folder.names(), [NAME, "list"]);
    fs::remove_file(folder.path("list")).unwrap();
    next_run(&folder, "limit");
}

/// Another program, which knows no locks, puts another shelf in the place of this one.
fn replaced_meanwhile(by: &str) {
    let (folder, calls) = articles();
    let rename = first(&calls, "rename");
    let other = shelf_of(["x3o", "o"]);
    let both = shelf_of(["x3o", "o"].into_iter().chain(ADD.into_iter().skip(2)));
    let elsewhere = Folder::new();
    let from = elsewhere.path("other.shelf");
    let by = format!("{by} {} {NAME}", from.display());
    for (n, call) in (1..).zip(&calls) {
        let what = format!("before call {n}, {call}");
        folder.write(NAME, old());
        elsewhere.write("other.shelf", &other);
        let run = at(&mut folder.command(ADD), n, Fault::Run(&by));
        assert_eq!(run.status, Some(0), "{what}: {run:?}");
        let right = match n.cmp(&rename) {
            Ordering::Less => &both,
            Ordering::Equal => &new(), // a moment that only a lock would guard
            Ordering::Greater => &other,
        };
        assert!(folder.read(NAME) == *right, "{what}");
        assert_eq!(folder.names(), [NAME], "{what}");
    }
}

#[test]
fn moved_over_meanwhile() {
    replaced_meanwhile("mv");
}

#[test]
fn copied_over_meanwhile() {
    replaced_meanwhile("cp");
}

/// The file stays the same one and as long as it was; only its times tell.
#[test]
fn written_over_meanwhile() {
    let (folder, calls) = articles();
    let others: Vec<String> = (3..203).map(|n| format!("o{n}o")).collect();
    let others: Vec<&str> = others.iter().map(|text| &**text).collect();
    let elsewhere = Folder::new();
    let from = elsewhere.write("other.shelf", shelf_of(others.iter().copied()));
    // Later than the times that a system's clock tells apart.
    let by = format!("sleep 0.03; cp {} {NAME}", from.display());
    let both = shelf_of(others.into_iter().chain(ADD.into_iter().skip(2)));
    for call in ["write", "fsync"] {
        folder.write(NAME, old());
        let run = at(
            &mut folder.command(ADD),
            first(&calls, call),
            Fault::Run(&by),
        );
        assert_eq!(run.status, Some(0), "{run:?}");
        assert!(folder.read(NAME) == both && folder.names() == [NAME]);
    }
}

#[test]
fn removed_meanwhile() {
    let (folder, calls) = articles();
    let rename = first(&calls, "rename");
    for n in 1..rename {
        folder.write(NAME, old());
        let run = at(&mut folder.command(ADD), n, Fault::Run("rm articles.shelf"));
        run.fails("lexicon: articles.shelf: No such file or directory");
        assert!(folder.names().is_empty(), "{n}: {:?}", folder.names());
    }
}

#[test]
fn replaced_again_and_again() {
    let folder = with_old();
    let other = format!("cp {NAME} copy && mv copy {NAME}");
    let run = before_each(&mut folder.command(ADD), "fsync", &other);
    run.fails("it is replaced again and again by others; nothing was done");
    assert!(folder.read(NAME) == old() && folder.names() == [NAME]);
}

#[test]
fn eight_processes_lose_nothing() {
    let folder = with_old();
    let adding = |process: usize| {
        let folder = &folder;
        move || {
            for n in 0..50 {
                let text = format!("o{}x3x", 3 + 50 * process + n);
                let run = folder.shelf(["add", NAME, &text]);
                assert_eq!(run.status, Some(0), "{run:?}"); // which may say that it waits
            }
        }
    };
    thread::scope(|scope| (0..8).for_each(|process| drop(scope.spawn(adding(process)))));
    let mut all = texts();
    all.extend((3..403).map(|n| format!("o{n}x3x")));
    assert!(folder.read(NAME) == shelf_of(all.iter().map(|text| &**text)));
    assert_eq!(folder.names(), [NAME]);
}

/// Runs that are killed while others add: whoever succeeded is there, and nothing but what was added.
#[test]
fn killed_among_others() {
    let folder = with_old();
    let adding = |process: usize| {
        let folder = &folder;
        move || {
            let mut chance = Chance(process as u64 + 1);
            let texts = (0..25).map(|n| format!("o{}x3x", 3 + 25 * process + n));
            let added = texts.filter(|text| {
                let mut child = folder
                    .command(["add", NAME, text])
                    .stdout(Stdio::null())
                    .spawn()
                    .unwrap();
                if chance.below(2) == 0 {
                    thread::sleep(Duration::from_micros(chance.below(8000) as u64));
                    child.kill().unwrap();
                }
                child.wait().unwrap().success()
            });
            added.collect::<Vec<String>>()
        }
    };
    let added: Vec<String> = thread::scope(|scope| {
        let threads: Vec<_> = (0..4).map(|process| scope.spawn(adding(process))).collect();
        threads
            .into_iter()
            .flat_map(|thread| thread.join().unwrap())
            .collect()
    });
    assert!(added.len() > 30, "{}", added.len());
    assert_eq!(folder.shelf(["add", NAME, "o"]).status, Some(0));
    let mut find = folder.command(["find", NAME]);
    assert_eq!(Run::of(find.args(&added)).status, Some(0));
    assert_eq!(folder.names(), [NAME]);
}

#[test]
fn permissions_are_kept() {
    let folder = Folder::new();
    let shelf = folder.write(NAME, old());
    for (n, mode) in [0o640, 0o600, 0o666, 0o755, 0o444].into_iter().enumerate() {
        if mode & 0o200 == 0 && !is_root() {
            continue;
        }
        fs::set_permissions(&shelf, PermissionsExt::from_mode(mode)).unwrap();
        let run = folder.shelf(["add", NAME, &format!("o{}x3x", 3 + n)]);
        assert_eq!(run.status, Some(0), "{run:?}");
        assert_eq!(fs::metadata(&shelf).unwrap().mode() & 0o7777, mode);
    }
    if is_root() {
        chown(&shelf, Some(65534), Some(65533)).unwrap();
        assert_eq!(folder.shelf(["add", NAME, "o"]).status, Some(0));
        let kept = fs::metadata(&shelf).unwrap();
        assert_eq!(
            (kept.uid(), kept.gid(), kept.mode() & 0o7777),
            (65534, 65533, 0o444)
        );
    }
}

#[test]
fn access_control_lists_are_kept() {
    let folder = Folder::new();
    let shelf = folder.write(NAME, old());
    if let Err(e) = access::set(&shelf, &access::list()) {
        println!("this file system has no access control lists: {e}");
        return;
    }
    assert_eq!(folder.shelf(ADD).status, Some(0));
    assert!(folder.read(NAME) == new());
    assert_eq!(access::get(&shelf), access::list());
    assert_eq!(fs::metadata(&shelf).unwrap().mode() & 0o7777, 0o660);
}

/// A file that belongs to another, in a folder where this user may write: the mode is kept.
#[test]
fn the_mode_is_kept_where_the_owner_can_not_be() {
    if !is_root() {
        println!("only root can give a file to another; the owner's part is not tested");
        return;
    }
    let folder = Folder::open_to_all();
    let shelf = folder.write(NAME, old());
    fs::set_permissions(&shelf, PermissionsExt::from_mode(0o4666)).unwrap();
    let run = Run::of(&mut as_user(&folder, &mut folder.command(ADD)));
    assert_eq!(run.status, Some(0), "{run:?}");
    let kept = fs::metadata(&shelf).unwrap();
    assert_eq!((kept.uid(), kept.mode() & 0o7777), (65534, 0o666));
    assert!(folder.read(NAME) == new());
}

#[test]
fn links_are_kept() {
    let [folder, there] = [Folder::new(), Folder::new()];
    there.write(NAME, old());
    symlink(there.path(NAME), folder.path("second")).unwrap();
    symlink("second", folder.path(NAME)).unwrap();
    let run = folder.shelf(ADD);
    assert_eq!(run.status, Some(0), "{run:?}");
    assert!(there.read(NAME) == new());
    assert_eq!(there.names(), [NAME]);
    assert_eq!(folder.names(), [NAME, "second"]);
    assert!(fs::symlink_metadata(folder.path(NAME))
        .unwrap()
        .is_symlink());
    assert!(fs::symlink_metadata(there.path(NAME)).unwrap().is_file());
}

#[test]
fn read_only() {
    let folder = Folder::open_to_all();
    let shelf = folder.write(NAME, old());
    fs::set_permissions(&shelf, PermissionsExt::from_mode(0o444)).unwrap();
    let run = Run::of(&mut as_user(&folder, &mut folder.command(ADD)));
    run.fails("lexicon: articles.shelf: Permission denied");
    fs::set_permissions(&shelf, PermissionsExt::from_mode(0o666)).unwrap();
    fs::set_permissions(&folder.0, PermissionsExt::from_mode(0o755)).unwrap();
    if is_root() {
        let run = Run::of(&mut as_user(&folder, &mut folder.command(ADD)));
        run.fails("the new shelf: Permission denied (os error 13); nothing was added");
    }
    assert!(folder.read(NAME) == old());
    assert_eq!(folder.names(), [NAME, "program"]);
}

/// The first line that a run says on standard error.
fn said(child: &mut Child) -> String {
    let mut line = String::new();
    let mut err = BufReader::new(child.stderr.take().unwrap());
    err.read_line(&mut line).unwrap();
    line
}

#[test]
fn waits_for_a_lock_and_says_so() {
    let folder = Folder::new();
    let held = File::open(folder.write(NAME, old())).unwrap();
    held.lock().unwrap();
    let mut command = folder.command(ADD);
    let mut adding = command
        .stderr(Stdio::piped())
        .stdout(Stdio::null())
        .spawn()
        .unwrap();
    for reading in [
        &["check", NAME][..],
        &["list", NAME],
        &["find", NAME, "x3o"],
    ] {
        assert_eq!(Run::of(&mut folder.command(reading)).status, Some(0)); // without waiting
    }
    assert_eq!(
        said(&mut adding),
        "lexicon: waiting for another lexicon that has articles.shelf\n"
    );
    assert!(folder.read(NAME) == old());
    held.unlock().unwrap();
    assert_eq!(adding.wait().unwrap().code(), Some(0));
    assert!(folder.read(NAME) == new());
}

/// A run that has locked its temporary file lives: its file is waited for, and not removed.
#[test]
fn waits_for_a_temporary_file_in_use() {
    let folder = with_old();
    let temporary = folder.write(".articles.shelf.lexicon-new", "half of a shelf");
    let held = File::open(&temporary).unwrap();
    held.lock().unwrap();
    let mut command = folder.command(ADD);
    let mut adding = command
        .stderr(Stdio::piped())
        .stdout(Stdio::null())
        .spawn()
        .unwrap();
    assert_eq!(
        said(&mut adding),
        "lexicon: waiting for another lexicon that has articles.shelf\n"
    );
    assert_eq!(fs::read(&temporary).unwrap(), b"half of a shelf");
    drop(held);
    assert_eq!(adding.wait().unwrap().code(), Some(0));
    assert!(folder.read(NAME) == new() && folder.names() == [NAME]);
}

/// A link of the temporary file's name is not followed.
#[test]
fn a_link_in_the_way() {
    let folder = with_old();
    folder.write("precious", "1");
    symlink("precious", folder.path(".articles.shelf.lexicon-new")).unwrap();
    folder
        .shelf(ADD)
        .fails(".articles.shelf.lexicon-new: Too many levels of symbolic links");
    assert_eq!(folder.read("precious"), b"1");
    assert!(folder.read(NAME) == old());
}

/// A run that makes a shelf of the texts that `ADD` adds.
fn make(folder: &Folder) -> Command {
    let elsewhere = Folder::new();
    let list = elsewhere.write("list", ADD[2..].join("\n"));
    let mut command = folder.command(["make", NAME]);
    command.stdin(File::open(list).unwrap());
    command
}

fn made() -> Vec<u8> {
    shelf_of(ADD.into_iter().skip(2))
}

/// A folder with that shelf, from which runs rescue the same one.
struct Elsewhere(Folder);

impl Elsewhere {
    fn new() -> Self {
        let folder = Folder::new();
        folder.write("old.shelf", made());
        Self(folder)
    }

    fn rescue(&self, folder: &Folder) -> Command {
        let old = self.0.path("old.shelf");
        folder.command(["rescue".as_ref(), old.as_os_str(), NAME.as_ref()])
    }

    /// Asserts that no run changed it or left a file beside it.
    fn is_as_it_was(&self) {
        assert!(self.0.read("old.shelf") == made());
        assert_eq!(self.0.names(), ["old.shelf"]);
    }
}

fn killed_at_each_step(making: impl Fn(&Folder) -> Command) {
    let folder = Folder::new();
    let calls = calls(&mut making(&folder));
    assert!(folder.read(NAME) == made());
    let link = first(&calls, "linkat");
    for (n, call) in (1..).zip(&calls) {
        for (fault, adding) in [
            (Fault::KillBefore, false),
            (Fault::KillAfter, false),
            (Fault::KillAfter, true),
        ] {
            let what = format!("{fault:?} of call {n}, {call}");
            fs::remove_file(folder.path(NAME)).unwrap();
            let run = at(&mut making(&folder), n, fault);
            assert_eq!(run.status, None, "{what}: {run:?}");
            let there = n > link || n == link && matches!(fault, Fault::KillAfter);
            assert_eq!(folder.path(NAME).exists(), there, "{what}");
            assert!(!there || folder.read(NAME) == made(), "{what}");
            let (next, status) = match (there, adding) {
                (true, true) => (Run::of(&mut folder.command(ADD)), 1),
                _ => (Run::of(&mut making(&folder)), 2 * i32::from(there)),
            };
            assert_eq!(next.status, Some(status), "{what}: {next:?}");
            assert!(folder.read(NAME) == made(), "{what}");
            assert_eq!(folder.names(), [NAME], "{what}");
        }
    }
}

#[test]
fn killed_at_each_step_of_making() {
    killed_at_each_step(make);
}

#[test]
fn killed_at_each_step_of_rescuing() {
    let elsewhere = Elsewhere::new();
    killed_at_each_step(|folder| elsewhere.rescue(folder));
    elsewhere.is_as_it_was();
}

fn failing_at_each_step(making: impl Fn(&Folder) -> Command) {
    let folder = Folder::new();
    let calls = calls(&mut making(&folder));
    let link = first(&calls, "linkat");
    for (n, call) in (1..).zip(&calls) {
        for errno in [libc::ENOSPC, libc::EIO, libc::EPERM] {
            let what = format!("error {errno} of call {n}, {call}");
            let _ = fs::remove_file(folder.path(NAME));
            let run = at(&mut making(&folder), n, Fault::Fail(errno));
            let there = folder.path(NAME).exists();
            match run.status {
                // Without the second name a rename serves.
                Some(0) if n == link => assert!(there && errno == libc::EPERM, "{what}"),
                Some(0) => assert!(call.starts_with("statx") && there, "{what}: {run:?}"),
                Some(2) => assert_eq!(there, n > link, "{what}: {run:?}"),
                _ => panic!("{what}: {run:?}"),
            }
            assert!(!there || folder.read(NAME) == made(), "{what}");
            if call.starts_with("unlink") {
                assert_eq!(Run::of(&mut making(&folder)).status, Some(2)); // clears up
            }
            assert_eq!(
                folder.names(),
                if there { &[NAME][..] } else { &[] },
                "{what}"
            );
        }
    }
}

#[test]
fn failing_at_each_step_of_making() {
    failing_at_each_step(make);
}

#[test]
fn failing_at_each_step_of_rescuing() {
    let elsewhere = Elsewhere::new();
    failing_at_each_step(|folder| elsewhere.rescue(folder));
    elsewhere.is_as_it_was();
}

/// Another program makes a file of this name while a run makes the shelf: it is not replaced.
fn made_by_another_program(making: impl Fn(&Folder) -> Command) {
    let folder = Folder::new();
    let calls = calls(&mut making(&folder));
    for n in 1..=first(&calls, "linkat") {
        fs::remove_file(folder.path(NAME)).unwrap();
        let run = at(
            &mut making(&folder),
            n,
            Fault::Run("echo precious >articles.shelf"),
        );
        run.fails("lexicon: articles.shelf: is there already, and is left as it is");
        assert_eq!(folder.read(NAME), b"precious\n");
        assert_eq!(folder.names(), [NAME]);
    }
}

#[test]
fn made_meanwhile() {
    made_by_another_program(make);
}

#[test]
fn made_while_rescuing() {
    let elsewhere = Elsewhere::new();
    made_by_another_program(|folder| elsewhere.rescue(folder));
    elsewhere.is_as_it_was();
}

#[test]
fn made_once_by_eight_processes() {
    let folder = Folder::new();
    let elsewhere = Elsewhere::new();
    for _ in 0..5 {
        let making = |process| match process % 2 {
            0 => make(&folder),
            _ => elsewhere.rescue(&folder),
        };
        let mut commands: Vec<Command> = (0..8).map(making).collect();
        let quiet = |command: &mut Command| {
            command
                .stdout(Stdio::null())
                .stderr(Stdio::null())
                .spawn()
                .unwrap()
        };
        let children: Vec<Child> = commands.iter_mut().map(quiet).collect();
        let mut statuses: Vec<_> = children
            .into_iter()
            .map(|mut child| child.wait().unwrap().code())
            .collect();
        statuses.sort_unstable();
        assert_eq!(statuses, [[Some(0)].as_slice(), &[Some(2); 7]].concat());
        assert!(folder.read(NAME) == made() && folder.names() == [NAME]);
        fs::remove_file(folder.path(NAME)).unwrap();
    }
    elsewhere.is_as_it_was();
}
