//! A bar on standard error, for work that takes long.

use std::{
    io::{self, IsTerminal},
    time::{Duration, Instant},
};

use indicatif::{ProgressBar, ProgressStyle};

/// How long work takes before a bar is shown, and how long a bar stays as it is.
const PATIENCE: Duration = Duration::from_secs(1);
const PAUSE: Duration = Duration::from_millis(100);

/// Shown where standard error is a terminal.
pub struct Progress {
    /// How many bytes there are in all, if that is known.
    total: Option<u64>,
    due: Option<Instant>,
    bar: Option<ProgressBar>,
}

impl Progress {
    pub fn new(total: Option<u64>) -> Self {
        let terminal = io::stderr().is_terminal();
        Self {
            total,
            due: terminal.then(|| Instant::now() + PATIENCE),
            bar: None,
        }
    }

    /// Tells how many bytes were read. It looks at the clock, so it is not for every line.
    pub fn show(&mut self, bytes: u64) {
        let now = Instant::now();
        if self.due.is_none_or(|due| now < due) {
            return;
        }
        self.due = Some(now + PAUSE);
        let bar = self.bar.get_or_insert_with(|| new_bar(self.total));
        bar.set_position(bytes);
    }

    /// Takes the bar away while something else is written, which may go to the same terminal.
    pub fn aside<T>(&self, write: impl FnOnce() -> T) -> T {
        match &self.bar {
            Some(bar) => bar.suspend(write),
            None => write(),
        }
    }

    pub fn end(&self) {
        if let Some(bar) = &self.bar {
            bar.finish_and_clear();
        }
    }
}

fn new_bar(total: Option<u64>) -> ProgressBar {
    let (bar, template) = match total {
        Some(total) => (
            ProgressBar::new(total),
            "{wide_bar} {bytes} of {total_bytes}, {eta} left",
        ),
        None => (ProgressBar::new_spinner(), "{spinner} {bytes}"),
    };
    match ProgressStyle::with_template(template) {
        Ok(style) => bar.with_style(style),
        Err(_) => bar,
    }
}
