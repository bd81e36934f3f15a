//! The folder of a shelf.

use std::{
    ffi::OsString,
    fs::{self, File},
    io::{self, ErrorKind},
    path::{Path, PathBuf},
};

/// The folder in which a shelf is, or will be.
pub struct Folder {
    path: PathBuf,
    file: File,
    /// The shelf's name in it.
    name: OsString,
}

impl Folder {
    /// Opens the folder of a path, links to it resolved; its name is left as it is.
    pub fn of(path: &Path) -> io::Result<Self> {
        let Some(name) = path.file_name() else {
            return Err(io::Error::new(
                ErrorKind::InvalidInput,
                "this is no name of a file",
            ));
        };
        let parent = match path.parent() {
            Some(parent) if parent != Path::new("") => parent,
            _ => Path::new("."),
        };
        let path = fs::canonicalize(parent)?;
        Ok(Self {
            file: File::open(&path)?,
            path,
            name: name.into(),
        })
    }

    /// The shelf's path.
    pub fn shelf(&self) -> PathBuf {
        self.path.join(&self.name)
    }

    /// The path of the shelf's temporary file: one name, so that a run finds what a killed one left.
    pub fn temporary(&self) -> PathBuf {
        let mut name = OsString::from(".");
        name.push(&self.name);
        name.push(".lexicon-new");
        self.path.join(name)
    }

    /// Flushes the folder to disk, so that its new entries outlive a power cut.
    pub fn flush(&self) -> io::Result<()> {
        self.file.sync_all()
    }
}
