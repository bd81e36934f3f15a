//! The replacement of a shelf file. Whatever happens, the file is the old shelf or the new one: the
//! new one is written whole beside it and flushed to disk, and then takes its name.

use std::{
    fs::{self, File, Metadata, OpenOptions},
    io::{self, ErrorKind, Read},
    os::unix::fs::MetadataExt,
    path::{Path, PathBuf},
};

use lexicon::Shelf;

use super::{
    folder::Folder,
    fresh::{self, Fresh, Quiet},
    lock::{again_and_again, is_at, lock, TRIES},
    system,
};
use crate::output::Failure;

/// How often a replacement starts again because a program that knows no locks replaced the file.
const REPLACED: usize = 10;

/// What becomes of the old bytes: the new shelf, or what is said if nothing is written.
pub type Plan = Result<Shelf, String>;

/// Replaces a shelf file by what `plan` makes of its bytes, and gives that. A link stays, and the
/// file that it leads to is replaced.
pub fn replace(
    path: &Path,
    plan: impl Fn(&[u8]) -> Result<Plan, Failure>,
) -> Result<Plan, Failure> {
    system::survive_file_size_limit();
    for _ in 0..REPLACED {
        let held = Held::take(path).map_err(|e| not_taken(path, &e))?;
        let mut step = Step { path, held };
        if let Some(plan) = step.run(&plan)? {
            return Ok(plan);
        }
    }
    Err(not_taken(path, &again_and_again()))
}

fn not_taken(path: &Path, e: &io::Error) -> Failure {
    match e.kind() {
        ErrorKind::NotFound => {
            let what = format!("{e}; `lexicon shelf make` makes a new shelf");
            Failure::of_file(path, what)
        }
        _ => Failure::of_file(path, e),
    }
}

/// The shelf, open and locked by this run.
struct Held {
    path: PathBuf,
    file: File,
}

impl Held {
    /// Opens the file as if to write, so that a read-only one is refused, and locks it. If another
    /// run has replaced it before the lock was had, the lock is on a file that has no name any more.
    fn take(path: &Path) -> io::Result<Self> {
        for _ in 0..TRIES {
            let target = fs::canonicalize(path)?;
            let mut options = OpenOptions::new();
            let file = options.read(true).write(true).quiet().open(&target)?;
            if !file.metadata()?.is_file() {
                return Err(io::Error::other("this is no regular file"));
            }
            lock(&file, path)?;
            if is_at(&file, &target)? {
                return Ok(Self { path: target, file });
            }
        }
        Err(again_and_again())
    }
}

/// One try of a replacement.
struct Step<'a> {
    /// The file as the user named it.
    path: &'a Path,
    held: Held,
}

impl Step<'_> {
    /// `None` if a program that knows no locks changed the file before it was replaced.
    fn run(
        &mut self,
        plan: impl Fn(&[u8]) -> Result<Plan, Failure>,
    ) -> Result<Option<Plan>, Failure> {
        let folder = Folder::of(&self.held.path).map_err(|e| self.failure("its folder", &e))?;
        let (old, bytes) = self.read(&folder)?;
        let new = match plan(&bytes)? {
            Ok(new) => new,
            Err(said) => return Ok(Some(Err(said))),
        };
        let written = self.write(&folder, &old, &new);
        let mut fresh = written.map_err(|e| self.failure("the new shelf", &e))?;
        let now = fs::symlink_metadata(&self.held.path);
        if !now.is_ok_and(|now| state(&now) == state(&old)) {
            return Ok(None);
        }
        let replaced = fresh.replace(&self.held.path);
        replaced.map_err(|e| self.failure("the renaming of the new shelf", &e))?;
        folder.flush().map_err(|e| unsure(self.path, &e))?;
        Ok(Some(Ok(new)))
    }

    /// The old file, after a killed run's temporary file is removed.
    fn read(&mut self, folder: &Folder) -> Result<(Metadata, Vec<u8>), Failure> {
        let look = |file: &File| file.metadata().map_err(|e| Failure::of_file(self.path, e));
        let held = look(&self.held.file)?;
        let temporary = folder.temporary();
        fresh::clear(&temporary, self.path, Some(&held))
            .map_err(|e| Failure::of_file(&temporary, e))?;
        let old = look(&self.held.file)?; // since a second name of this file may have gone
        let mut bytes = Vec::new();
        let read = self.held.file.read_to_end(&mut bytes);
        read.map_err(|e| Failure::of_file(self.path, e))?;
        Ok((old, bytes))
    }

    /// The new file, written whole. Until its permissions are set nobody else may open it.
    fn write(&self, folder: &Folder, old: &Metadata, new: &Shelf) -> io::Result<Fresh> {
        let temporary = folder.temporary();
        let mut fresh = Fresh::make(&temporary, self.path, Some(old), 0o600)?;
        fresh.keep_permissions(&self.held.file, old)?;
        fresh.write(new.as_bytes())?;
        Ok(fresh)
    }

    fn failure(&self, what: &str, e: &io::Error) -> Failure {
        Failure::of_file(self.path, format!("{what}: {e}; nothing was added"))
    }
}

/// What differs if a file was replaced, written to or given other permissions.
fn state(file: &Metadata) -> impl PartialEq {
    let [written, changed] = [
        (file.mtime(), file.mtime_nsec()),
        (file.ctime(), file.ctime_nsec()),
    ];
    (file.dev(), file.ino(), file.len(), written, changed)
}

/// The failure of a folder's flush, after the file has its name.
pub fn unsure(path: &Path, e: &io::Error) -> Failure {
    let what = "the new shelf is in place, but may not outlive a power cut: its folder could not be flushed";
    Failure::of_file(path, format!("{what}: {e}"))
}
