//! Runs of `lexicon shelf` that `faults.c` kills, fails or disturbs.

use std::{fs, path::PathBuf, process::Command, sync::OnceLock};

use crate::common::{Folder, Run};

/// The library of `faults.c`, built once.
fn library() -> &'static PathBuf {
    static LIBRARY: OnceLock<PathBuf> = OnceLock::new();
    LIBRARY.get_or_init(|| {
        let source = concat!(env!("CARGO_MANIFEST_DIR"), "/tests/faults.c");
        let folder = PathBuf::from(env!("CARGO_TARGET_TMPDIR"));
        let built = folder.join(format!("faults-{}.so", std::process::id()));
        let library = folder.join("faults.so");
        let options = [
            "-std=gnu11",
            "-Wall",
            "-Wextra",
            "-Werror",
            "-O0",
            "-shared",
            "-fPIC",
        ];
        let mut gcc = Command::new("gcc");
        gcc.args(options)
            .arg(source)
            .arg("-o")
            .arg(&built)
            .arg("-ldl");
        assert!(gcc.status().unwrap().success());
        fs::rename(built, &library).unwrap();
        library
    })
}

/// What happens to a run at one of its calls.
#[derive(Clone, Copy, Debug)]
pub enum Fault<'a> {
    KillBefore,
    KillAfter,
    Fail(i32),
    Full,
    Run(&'a str),
}

/// Lets the command meet a fault at its n-th call, counted from 1.
pub fn at(command: &mut Command, n: usize, fault: Fault) -> Run {
    let name = match fault {
        Fault::KillBefore => "kill-before",
        Fault::KillAfter => "kill-after",
        Fault::Fail(_) => "fail",
        Fault::Full => "full",
        Fault::Run(_) => "run",
    };
    command.env("LD_PRELOAD", library()).env("FAULTS_DO", name);
    command.env("FAULTS_AT", n.to_string());
    match fault {
        Fault::Fail(errno) => command.env("FAULTS_ERRNO", errno.to_string()),
        Fault::Run(other) => command.env("FAULTS_COMMAND", other),
        _ => command,
    };
    Run::of(command)
}

/// Lets another command run before each call of this name.
pub fn before_each(command: &mut Command, name: &str, other: &str) -> Run {
    command
        .env("LD_PRELOAD", library())
        .env("FAULTS_BEFORE", name);
    Run::of(command.env("FAULTS_COMMAND", other))
}

/// The calls that a command makes, each with its descriptor or path, while it does its work.
pub fn calls(command: &mut Command) -> Vec<String> {
    let elsewhere = Folder::new();
    let log = elsewhere.path("log");
    command.env("LD_PRELOAD", library()).env("FAULTS_LOG", &log);
    let output = command.output().unwrap();
    assert!(output.status.success(), "{output:?}");
    let log = fs::read_to_string(log).unwrap();
    log.lines().map(String::from).collect()
}

/// Which call is the first of this name, counted from 1.
pub fn first(calls: &[String], name: &str) -> usize {
    let at = calls.iter().position(|call| call.starts_with(name));
    at.unwrap() + 1
}
