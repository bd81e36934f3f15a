//! Standard output, and how a run ends.

use std::{
    fmt::Display,
    io::{self, BufWriter, ErrorKind, StdoutLock, Write},
    path::Path,
    process::ExitCode,
    sync::atomic::{AtomicBool, Ordering},
};

/// How a command ends: with a status, or with a failure, which is status 2.
pub type Outcome = Result<Status, Failure>;

/// What a command that did its work has to tell.
#[derive(Clone, Copy, Debug, PartialEq, Eq)]
pub enum Status {
    /// Nothing is wrong.
    Fine,
    /// A text is refused, stands twice, or is not what was asked for.
    Wrong,
    /// Part of the work could not be done, and this was said.
    Failed,
}

impl From<Status> for ExitCode {
    fn from(status: Status) -> Self {
        Self::from(match status {
            Status::Fine => 0,
            Status::Wrong => 1,
            Status::Failed => 2,
        })
    }
}

/// Why a command could not do its work.
#[derive(Debug)]
pub enum Failure {
    /// What is said of it.
    Said(String),
    /// Standard output can't be written.
    Output(io::Error),
}

impl Failure {
    /// A failure about a file.
    pub fn of_file(path: &Path, what: impl Display) -> Self {
        Self::Said(format!("{}: {what}", path.display()))
    }

    /// Says it on standard error. A reader of the output that went away, as `head` does, wants no
    /// words.
    pub fn say(&self) {
        match self {
            Self::Said(what) => complain(what),
            Self::Output(e) if e.kind() == ErrorKind::BrokenPipe => (),
            Self::Output(e) => complain(format_args!("standard output: {e}")),
        }
    }
}

impl From<io::Error> for Failure {
    /// Of what is written to the output; errors of files are told by [`Failure::of_file`].
    fn from(e: io::Error) -> Self {
        Self::Output(e)
    }
}

/// Writes a line on standard error. Where that fails, nothing is left to say it on.
pub fn complain(what: impl Display) {
    let _ = writeln!(io::stderr(), "lexicon: {what}");
}

/// Standard output, buffered.
pub struct Output(BufWriter<StdoutLock<'static>>);

impl Output {
    pub fn new() -> Self {
        Self(BufWriter::with_capacity(1 << 16, io::stdout().lock()))
    }
}

impl Write for Output {
    fn write(&mut self, bytes: &[u8]) -> io::Result<usize> {
        if CLOSED.load(Ordering::Relaxed) {
            return Err(io::Error::from_raw_os_error(libc::EBADF));
        }
        self.0.write(bytes)
    }

    fn flush(&mut self) -> io::Result<()> {
        self.0.flush()
    }
}

/// Whether standard output was closed when the program began. Before `main` Rust opens `/dev/null`
/// in its place, into which all that is written would vanish without an error.
static CLOSED: AtomicBool = AtomicBool::new(false);

#[allow(unsafe_code)]
mod before_main {
    use super::{AtomicBool, Ordering, CLOSED};

    extern "C" fn look() {
        // SAFETY: the call asks for the flags of a descriptor and has no other effect.
        let closed = unsafe { libc::fcntl(libc::STDOUT_FILENO, libc::F_GETFD) } == -1;
        AtomicBool::store(&CLOSED, closed, Ordering::Relaxed);
    }

    // SAFETY: the loader calls each function of this section once before `main`; this one needs
    // nothing that Rust sets up.
    #[used]
    #[unsafe(link_section = ".init_array")]
    static LOOK: extern "C" fn() = look;
}
