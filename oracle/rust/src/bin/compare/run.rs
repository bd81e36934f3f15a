//! A comparison over many indices on some threads: what it counts, what differs, and how it ends.

use std::{
    any::Any,
    panic::{self, AssertUnwindSafe},
    process::ExitCode,
    sync::atomic::{AtomicU64, Ordering},
    thread,
    time::Instant,
};

/// The places of a tally; each comparison labels its own.
pub const PLACES: usize = 128;

pub struct Tally(pub [u64; PLACES]);

impl Tally {
    pub fn count(&mut self, place: usize) {
        self.0[place] += 1;
    }
}

/// One thread's part of a comparison.
pub trait Work {
    /// Compares what the index stands for; an error says what differs.
    fn one(&mut self, index: u64, tally: &mut Tally) -> Result<(), String>;

    /// What the index stands for.
    fn name(&mut self, index: u64) -> String;
}

/// The most differences that are printed.
const SHOWN: usize = 20;

/// Indices that a thread takes at a time.
const BLOCK: u64 = 256;

/// What one thread, or all of them, found.
struct Found {
    tally: Tally,
    differ: u64,
    /// The first of them, by rising index.
    first: Vec<(u64, String)>,
}

/// Compares all indices below `count`. Which thread takes which makes no difference to what is found.
pub fn run<W: Work>(count: u64, threads: usize, labels: &[String], work: impl Fn() -> W + Sync) -> ExitCode {
    panic::set_hook(Box::new(|_| {})); // the Rust's panics are expected, and ours are caught
    let start = Instant::now();
    let next = AtomicU64::new(0);
    let one_thread = || part(count, &next, work());
    let found = thread::scope(|scope| {
        let parts: Vec<_> = (0..threads).map(|_| scope.spawn(one_thread)).collect();
        parts.into_iter().map(|part| part.join().unwrap()).reduce(joined).unwrap()
    });
    report(&found, labels);
    println!("{:.1} s on {threads} threads; {} differ", start.elapsed().as_secs_f64(), found.differ);
    ExitCode::from(u8::from(found.differ > 0))
}

fn part(count: u64, next: &AtomicU64, mut work: impl Work) -> Found {
    let mut found = Found { tally: Tally([0; PLACES]), differ: 0, first: Vec::new() };
    loop {
        let start = next.fetch_add(BLOCK, Ordering::Relaxed);
        if start >= count {
            return found;
        }
        for index in start..count.min(start + BLOCK) {
            let result = panic::catch_unwind(AssertUnwindSafe(|| work.one(index, &mut found.tally)));
            if let Err(what) = result.unwrap_or_else(|panic| Err(message(&*panic))) {
                found.differ += 1;
                if found.first.len() < SHOWN {
                    found.first.push((index, format!("{}: {what}", work.name(index))));
                }
            }
        }
    }
}

/// What the driver itself, or a check of the Rust in it, panicked with.
fn message(panic: &(dyn Any + Send)) -> String {
    let text = panic.downcast_ref::<String>().map(String::as_str).or(panic.downcast_ref::<&str>().copied());
    format!("the comparison panicked: {}", text.unwrap_or("?"))
}

fn joined(mut one: Found, other: Found) -> Found {
    for (count, more) in one.tally.0.iter_mut().zip(other.tally.0) {
        *count += more;
    }
    one.differ += other.differ;
    one.first.extend(other.first);
    one.first.sort_by_key(|(index, _)| *index);
    one.first.truncate(SHOWN);
    one
}

fn report(found: &Found, labels: &[String]) {
    for (_, what) in &found.first {
        println!("DIFFERS: {what}");
    }
    for (label, count) in labels.iter().zip(found.tally.0).filter(|(_, count)| *count > 0) {
        println!("{count:>11} {label}");
    }
}
