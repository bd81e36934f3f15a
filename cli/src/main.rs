//! The editor's command. What it decides, it asks the proved library: it reads files, shows, and
//! writes files.

mod arguments;
mod block;
mod check;
mod draw;
mod figures;
mod geometry;
mod lines;
mod names;
mod output;
mod progress;
mod record;
mod refusals;
mod report;
mod same;
mod shelf;
mod show;
mod sketch;
mod spelling;
mod texts;
mod threads;
mod walk;

use std::{io::Write, process::ExitCode};

use output::{Failure, Output};

fn main() -> ExitCode {
    let arguments = arguments::command().get_matches(); // exits with 2 on bad usage
    let mut out = Output::new();
    let outcome = run(&arguments, &mut out).and_then(|status| {
        out.flush()?;
        Ok(status)
    });
    match outcome {
        Ok(status) => status.into(),
        Err(failure) => {
            failure.say();
            ExitCode::from(2)
        }
    }
}

fn run(arguments: &clap::ArgMatches, out: &mut Output) -> output::Outcome {
    match arguments.subcommand() {
        Some(("check", arguments)) => check::run(arguments, out),
        Some(("same", arguments)) => same::run(arguments, out),
        Some(("show", arguments)) => show::run(arguments, out),
        Some(("draw", arguments)) => draw::run(arguments, out),
        Some(("record", arguments)) => record::run(arguments, out),
        Some(("shelf", arguments)) => shelf::run(arguments, out),
        _ => Err(Failure::Said("no such subcommand".into())),
    }
}
