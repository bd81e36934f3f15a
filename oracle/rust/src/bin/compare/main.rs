//! Compares the port, the library for C (include/lexicon.h), with the unchanged Rust and with document 01, in one process; and
//! measures its radii.
//!
//! * `compare texts SEED COUNT`: fixed texts, COUNT by chance, and all families, beside the Rust (beside.rs);
//! * `compare pairs SEED COUNT`: COUNT figures, their records and articles (pairs.rs);
//! * `compare shelves SEED COUNT`: COUNT shelf files, records to be found in them and added, and their rescue (shelves.rs);
//! * `compare names SEED COUNT`: COUNT diagrams of families and of what is next to them, and their names (naming.rs);
//! * `compare radii SEED COUNT`: COUNT figures, and how far the circumradii of their spellings lie apart (radii.rs).
//!
//! `--threads N` takes N threads in place of two; what is compared is the same. Exit status: 0 nothing differs, 1 something
//! does, 2 it was called otherwise.

mod articles;
mod beside;
mod chance;
mod dice;
mod expected;
mod figures;
mod grammar;
mod lengths;
mod limit_texts;
mod names;
mod naming;
mod pairs;
mod port;
mod radii;
mod records;
mod run;
mod shelf_files;
mod shelf_model;
mod shelf_port;
mod shelves;
mod spelling;
mod texts;
mod walls;

use std::{env, process::ExitCode};

fn main() -> ExitCode {
    let args: Vec<String> = env::args().collect();
    let Some((mode, seed, count, threads)) = parsed(&args[1..]) else {
        eprintln!("usage: compare texts|pairs|shelves|names|radii SEED COUNT [--threads N]");
        return ExitCode::from(2);
    };
    let code = match mode {
        "texts" => beside::run(seed, count, threads),
        "pairs" => pairs::run(seed, count, threads),
        "shelves" => shelves::run(seed, count, threads),
        "names" => naming::run(seed, count, threads),
        _ => radii::run(seed, count, threads),
    };
    println!("to repeat: {} {mode} {seed} {count}", args[0]);
    code
}

fn parsed(args: &[String]) -> Option<(&str, u64, u64, usize)> {
    let (mode, rest) = args.split_first()?;
    let threads = match rest {
        [_, _] => 2,
        [_, _, flag, threads] if flag == "--threads" => threads.parse().ok().filter(|&threads| threads > 0)?,
        _ => return None,
    };
    let known = ["texts", "pairs", "shelves", "names", "radii"].contains(&mode.as_str());
    Some((mode.as_str(), rest[0].parse().ok()?, rest[1].parse().ok()?, threads)).filter(|_| known)
}
