//! The temporary file beside a shelf. Its name is the same for all runs, and so is its rule: only a
//! run that has locked the file of this name, and then found it there still, may remove or rename it.

use std::{
    fs::{self, File, Metadata, OpenOptions},
    io::{self, ErrorKind, Write},
    mem,
    os::unix::fs::{fchown, MetadataExt, OpenOptionsExt, PermissionsExt},
    path::{Path, PathBuf},
};

use super::{
    lock::{again_and_again, is_at, is_same, lock, TRIES},
    system::{copy_access_list, rename_new},
};

/// Removes what a killed run has left, after waiting for a run that still lives. `held` is a file
/// that this run has locked: a run killed while it named a new shelf can leave the shelf and the
/// temporary name as one file, for whose lock this run would wait for ever.
pub fn clear(path: &Path, shelf: &Path, held: Option<&Metadata>) -> io::Result<()> {
    let found = match fs::symlink_metadata(path) {
        Err(e) if e.kind() == ErrorKind::NotFound => return Ok(()),
        found => found?,
    };
    if held.is_some_and(|held| is_same(held, &found)) {
        return fs::remove_file(path);
    }
    let opened = OpenOptions::new().read(true).write(true).quiet().open(path);
    let file = match opened {
        Err(e) if e.kind() == ErrorKind::NotFound => return Ok(()),
        file => file?,
    };
    lock(&file, shelf)?;
    if is_at(&file, path)? {
        fs::remove_file(path)?;
    }
    Ok(())
}

/// A temporary file that this run has made and locked. It is removed when this is dropped before it
/// was renamed. Its lock lasts until then: nobody gets the new shelf before the folder is flushed.
pub struct Fresh {
    path: PathBuf,
    file: File,
    /// Whether this run has to remove it.
    ours: bool,
}

impl Fresh {
    /// Makes the file, with what the process's mask leaves of this mode.
    pub fn make(path: &Path, shelf: &Path, held: Option<&Metadata>, mode: u32) -> io::Result<Self> {
        for _ in 0..TRIES {
            clear(path, shelf, held)?;
            let mut options = OpenOptions::new();
            let options = options.write(true).create_new(true).mode(mode).quiet();
            let file = match options.open(path) {
                Err(e) if e.kind() == ErrorKind::AlreadyExists => continue,
                file => file?,
            };
            let mut fresh = Self {
                path: path.into(),
                file,
                ours: true,
            };
            lock(&fresh.file, shelf)?;
            fresh.ours = is_at(&fresh.file, path)?; // else another run was faster with its lock
            if fresh.ours {
                return Ok(fresh);
            }
        }
        Err(again_and_again())
    }

    /// Gives it the permissions of the old file, and its owner and group where this is allowed. A
    /// file that can't be given away keeps no bits by which it would run as its owner.
    pub fn keep_permissions(&self, file: &File, old: &Metadata) -> io::Result<()> {
        let new = self.file.metadata()?;
        let mut kept = 0o7777;
        if (new.uid(), new.gid()) != (old.uid(), old.gid())
            && fchown(&self.file, Some(old.uid()), Some(old.gid())).is_err()
        {
            let _ = fchown(&self.file, None, Some(old.gid()));
            kept = 0o777;
        }
        copy_access_list(file, &self.file)?;
        let mode = old.permissions().mode() & kept;
        self.file.set_permissions(fs::Permissions::from_mode(mode))
    }

    /// Writes it whole, and flushes it to disk.
    pub fn write(&mut self, bytes: &[u8]) -> io::Result<()> {
        self.file.write_all(bytes)?;
        self.file.sync_all()
    }

    /// Renames it over the shelf.
    pub fn replace(&mut self, target: &Path) -> io::Result<()> {
        fs::rename(&self.path, target)?;
        self.ours = false;
        Ok(())
    }

    /// Gives it the shelf's name if no file has that, not even since a moment ago: by a second name,
    /// or, where a file can have but one, by a rename that replaces nothing. Either is unknown to some
    /// file systems.
    pub fn name(&mut self, target: &Path) -> io::Result<()> {
        match fs::hard_link(&self.path, target) {
            Err(e) if [ErrorKind::PermissionDenied, ErrorKind::Unsupported].contains(&e.kind()) => {
                rename_new(&self.path, target)?;
                self.ours = false;
                Ok(())
            }
            named => named,
        }
    }

    /// Removes the temporary name, if it is still there.
    pub fn remove(&mut self) -> io::Result<()> {
        if mem::take(&mut self.ours) {
            fs::remove_file(&self.path)?;
        }
        Ok(())
    }
}

impl Drop for Fresh {
    fn drop(&mut self) {
        if self.ours {
            let _ = fs::remove_file(&self.path); // the failure that led here is the one to tell
        }
    }
}

/// Ways to open that neither follow a link of this name nor wait for what is no file.
pub trait Quiet {
    fn quiet(&mut self) -> &mut Self;
}

impl Quiet for OpenOptions {
    fn quiet(&mut self) -> &mut Self {
        self.custom_flags(libc::O_NOFOLLOW | libc::O_NONBLOCK)
    }
}
