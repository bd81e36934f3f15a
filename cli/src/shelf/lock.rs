//! Locks on open files, which end with the process that has them.

use std::{
    fs::{self, File, Metadata, TryLockError},
    io::{self, ErrorKind},
    os::unix::fs::MetadataExt,
    path::Path,
    sync::mpsc::{self, RecvTimeoutError},
    thread,
    time::Duration,
};

use crate::output::complain;

/// How long a wait is borne in silence.
const SILENCE: Duration = Duration::from_secs(1);

/// How often a run that has got a lock on a file that lost its name looks for the next one. Each time
/// another run has done its work, so that this is only to end where files are never the same.
pub const TRIES: usize = 10_000;

/// The failure of a run that tried too often.
pub fn again_and_again() -> io::Error {
    io::Error::other("it is replaced again and again by others; nothing was done")
}

/// Locks a file for this run alone, and waits for that as long as it takes. `shelf` is the file
/// that is told of a long wait.
pub fn lock(file: &File, shelf: &Path) -> io::Result<()> {
    match file.try_lock() {
        Ok(()) => return Ok(()),
        Err(TryLockError::WouldBlock) => (),
        Err(TryLockError::Error(e)) if e.kind() == ErrorKind::Interrupted => (),
        Err(TryLockError::Error(e)) => return Err(e),
    }
    let said = format!("waiting for another lexicon that has {}", shelf.display());
    let (done, waiting) = mpsc::channel::<()>();
    thread::spawn(move || {
        // Nothing is sent; the channel ends when the wait does.
        if waiting.recv_timeout(SILENCE) == Err(RecvTimeoutError::Timeout) {
            complain(said);
        }
    });
    let locked = loop {
        match file.lock() {
            Err(e) if e.kind() == ErrorKind::Interrupted => (),
            locked => break locked,
        }
    };
    drop(done);
    locked
}

/// Whether an open file is still the one of this name. A link of this name is another file.
pub fn is_at(file: &File, path: &Path) -> io::Result<bool> {
    let here = file.metadata()?;
    match fs::symlink_metadata(path) {
        Ok(there) => Ok(is_same(&here, &there)),
        Err(e) if e.kind() == ErrorKind::NotFound => Ok(false),
        Err(e) => Err(e),
    }
}

pub fn is_same(a: &Metadata, b: &Metadata) -> bool {
    (a.dev(), a.ino()) == (b.dev(), b.ino())
}
