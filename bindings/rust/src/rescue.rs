//! What is kept of a damaged shelf file.

use crate::{CdError, Shelf};

/// What [`Shelf::rescue`] keeps of a file, and what it tells of the rest.
#[derive(Clone, Debug, PartialEq, Eq, Hash)]
pub struct Rescue {
    /// The records that were kept, in their order.
    pub shelf: Shelf,

    /// What became of each place of the file. As many are [`PlaceMark::Kept`] as the shelf has
    /// places.
    pub marks: Vec<PlaceMark>,

    /// How many bytes the file has behind its last whole place, fewer than 370. They are not kept.
    pub tail: usize,
}

impl Rescue {
    /// Whether all was kept: every place, and there was no tail. So it is of each file that
    /// [`Shelf::new`] takes.
    #[must_use]
    pub fn all_kept(&self) -> bool {
        self.tail == 0 && self.marks.iter().all(|&mark| mark == PlaceMark::Kept)
    }
}

/// What became of a place of a file that was rescued.
#[derive(Clone, Copy, Debug, PartialEq, Eq, Hash)]
pub enum PlaceMark {
    /// Its record is on the shelf.
    Kept,

    /// Its record can be read, but is not greater than the last one that was kept before it.
    OutOfOrder,

    /// Its bytes can't be read. The refusal is that of [`Record::from_bytes`]:
    /// [`CdError::NoDiagram`] or [`CdError::NotSmallest`].
    ///
    /// [`Record::from_bytes`]: crate::Record::from_bytes
    Refused(CdError),
}

impl PlaceMark {
    /// The mark that the library writes as this number.
    pub(crate) fn from_number(number: u8) -> Self {
        match number {
            0 => Self::Kept,
            1 => Self::OutOfOrder,
            _ => Self::Refused(CdError::from_numbers([number.into(), 0, 0, 0])),
        }
    }
}
