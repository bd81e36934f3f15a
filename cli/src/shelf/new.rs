//! A new shelf file, which never replaces a file: it is written whole beside its place and flushed to
//! disk, and then gets its name if no file has that.

use std::{
    fs,
    io::{self, ErrorKind},
    path::{Path, PathBuf},
};

use lexicon::Shelf;

use super::{
    folder::Folder,
    fresh::{self, Fresh},
    replace::unsure,
    system,
};
use crate::output::Failure;

/// A shelf file that is to be made.
pub struct New<'a> {
    /// The file as the user named it.
    path: &'a Path,
    folder: Folder,
    /// What is advised if a file has that name.
    advice: &'a str,
}

impl<'a> New<'a> {
    pub fn of(path: &'a Path, advice: &'a str) -> Result<Self, Failure> {
        system::survive_file_size_limit();
        let folder = Folder::of(path).map_err(|e| Failure::of_file(path, e))?;
        Ok(Self {
            path,
            folder,
            advice,
        })
    }

    /// The path under which it is written first.
    pub fn temporary(&self) -> PathBuf {
        self.folder.temporary()
    }

    /// Removes what a killed run has left, and fails if a file has the name.
    pub fn clear(&self) -> Result<(), Failure> {
        let temporary = self.temporary();
        fresh::clear(&temporary, self.path, None).map_err(|e| Failure::of_file(&temporary, e))?;
        match fs::symlink_metadata(self.folder.shelf()) {
            Ok(_) => Err(self.in_the_way()),
            Err(_) => Ok(()),
        }
    }

    pub fn write(&self, new: &Shelf) -> Result<(), Failure> {
        let failed = |e: io::Error| Failure::of_file(self.path, format!("{e}; it was not made"));
        let temporary = self.temporary();
        let mut fresh = Fresh::make(&temporary, self.path, None, 0o666).map_err(failed)?;
        fresh.write(new.as_bytes()).map_err(failed)?;
        fresh
            .name(&self.folder.shelf())
            .map_err(|e| match e.kind() {
                ErrorKind::AlreadyExists => self.in_the_way(),
                _ => failed(e),
            })?;
        fresh.remove().map_err(|e| {
            let what = format!("was made, but {} is left: {e}", temporary.display());
            Failure::of_file(self.path, what)
        })?;
        self.folder.flush().map_err(|e| unsure(self.path, &e))
    }

    fn in_the_way(&self) -> Failure {
        let what = format!("is there already, and is left as it is; {}", self.advice);
        Failure::of_file(self.path, what)
    }
}
