//! `lexicon shelf rescue`.

use std::{fs, io::ErrorKind, path::Path};

use lexicon::Shelf;

use super::{lock::is_same, new::New, read, rescued::Rescued};
use crate::output::{Failure, Outcome, Output, Status};

pub fn run(old: &Path, new: &Path, out: &mut Output) -> Outcome {
    let file = New::of(new, "NEW must be a name that no file has")?;
    spare(old, &file.temporary())?;
    file.clear()?; // before a long file is read
    let bytes = read(old).map_err(|e| Failure::of_file(old, e))?;
    let rescue = Shelf::rescue(&bytes);
    file.write(&rescue.shelf)?;
    let (laid_out, _) = bytes.as_chunks();
    let rescued = Rescued {
        old,
        new,
        laid_out,
        rescue: &rescue,
    };
    rescued.tell(out)?;
    Ok(if rescue.all_kept() {
        Status::Fine
    } else {
        Status::Wrong
    })
}

/// Fails if OLD is the file that is removed before NEW is written, such as one that a killed run has
/// left: OLD is only read.
fn spare(old: &Path, temporary: &Path) -> Result<(), Failure> {
    let read = fs::metadata(old).map_err(|e| Failure::of_file(old, e))?;
    match fs::symlink_metadata(temporary) {
        Ok(removed) if is_same(&read, &removed) => {
            let what = format!(
                "it is {}, which would be removed; give NEW another name",
                temporary.display()
            );
            Err(Failure::of_file(old, what))
        }
        Err(e) if e.kind() != ErrorKind::NotFound => Err(Failure::of_file(temporary, e)),
        _ => Ok(()),
    }
}
