//! Shelf files.

use std::fmt;

use crate::{
    ffi::{self, RECORD},
    CdResult, PlaceMark, Record, Rescue,
};

/// A shelf file: the records of many articles, 370 bytes each, each greater than the one before.
///
/// It comes from bytes that the library has checked, grows from an empty one, or is what
/// [`Shelf::rescue`] keeps of a damaged file. So every place has a record, and no record is there
/// twice: texts that are filed at two of its places are never one figure. Nothing here touches a
/// disk.
///
/// An editor who adds an article finds every old record there, in order, and the new one in its
/// only possible place:
///
/// ```
/// use lexicon::{Cd, CdError, Shelf};
///
/// let [cube, octahedron] = [Cd::parse("x4o3o")?.record(), Cd::parse("x3o4o")?.record()];
/// let mut shelf = Shelf::default();
/// assert_eq!(shelf.add(&octahedron), Ok(0));
/// assert_eq!(shelf.add(&cube), Ok(0));
/// assert!(shelf.records().eq([cube, octahedron]));
///
/// let same = Cd::parse("o4o3x")?.record();
/// assert_eq!(shelf.add(&same), Err(CdError::OnShelf { place: 1 }));
/// # Ok::<(), CdError>(())
/// ```
///
/// A server loads the file once, and then asks whether headwords are taken:
///
/// ```no_run
/// use lexicon::{Cd, Shelf};
///
/// let shelf = Shelf::new(std::fs::read("articles.shelf")?)?;
/// match shelf.find(&Cd::parse("o4o3x")?.record())? {
///     Ok(place) => println!("taken, at place {place}"),
///     Err(place) => println!("free, and would stand at place {place}"),
/// }
/// # Ok::<(), Box<dyn std::error::Error>>(())
/// ```
#[derive(Clone, Default, PartialEq, Eq, Hash)]
pub struct Shelf {
    /// A file that the check accepts.
    bytes: Vec<u8>,
}

impl Shelf {
    /// Takes the bytes of a shelf file, those of a `Vec` without a copy, and checks them. It reads
    /// every place, each in the time of [`Record::from_bytes`]. An empty file is a shelf, that of
    /// `Shelf::default()`.
    ///
    /// # Errors
    ///
    /// [`CdError::ShelfLength`] if their number is no multiple of 370, else [`CdError::ShelfPlace`]
    /// with the first place that can't be read or is not greater than the one before. Either drops
    /// the bytes of a `Vec`; a caller who wants to keep them, for [`Shelf::rescue`] for instance,
    /// lends a slice.
    ///
    /// ```
    /// use lexicon::{Cd, CdError, Record, Shelf};
    ///
    /// let mut records = [Cd::parse("x3o4o")?.record(), Cd::parse("x4o3o")?.record()];
    /// records.sort();
    /// let mut bytes: Vec<u8> = records.iter().flat_map(|record| *record.as_bytes()).collect();
    /// assert_eq!(Shelf::new(&bytes[..])?.places(), 2);
    ///
    /// bytes[Record::LEN] = 255;
    /// assert_eq!(Shelf::new(&bytes[..]), Err(CdError::ShelfPlace { place: 1 }));
    /// bytes.pop();
    /// assert_eq!(Shelf::new(bytes), Err(CdError::ShelfLength));
    /// # Ok::<(), CdError>(())
    /// ```
    ///
    /// [`CdError::ShelfLength`]: crate::CdError::ShelfLength
    /// [`CdError::ShelfPlace`]: crate::CdError::ShelfPlace
    pub fn new(bytes: impl Into<Vec<u8>>) -> CdResult<Self> {
        let bytes = bytes.into();
        ffi::shelf_check(&bytes)?;
        Ok(Self { bytes })
    }

    /// Keeps what can be kept of any file, such as one that a disk fault left with bad records and a
    /// cut tail: by places of 370 bytes, each record that can be read and is greater than the last
    /// one kept. It reads every place, as [`Shelf::new`] does, and lends the library as much memory
    /// again as the file has.
    ///
    /// What is kept is proved to be a file that the check accepts, and so is not checked again
    /// (`rescue-passes` in `crates/shelf_rescue/proofs/Librarian.antt`). A file that
    /// [`Shelf::new`] takes is kept whole, and bytes damaged inside one place never make another
    /// unreadable. But a damaged place that can still be read may be too great, and then good places
    /// behind it are out of order.
    ///
    /// ```
    /// use lexicon::{Cd, CdError, PlaceMark, Record, Shelf};
    ///
    /// let mut shelf = Shelf::default();
    /// for text in ["x", "x3o", "x4o3o"] {
    ///     shelf.add(&Cd::parse(text)?.record())?;
    /// }
    /// let mut file = shelf.as_bytes().to_vec();
    /// assert!(Shelf::rescue(&file).all_kept());
    ///
    /// file[Record::LEN] = 255; // the second record is damaged,
    /// file.extend_from_within(..500); // and behind the third come the first again and 130 bytes
    /// let rescue = Shelf::rescue(&file);
    /// assert!(rescue.shelf.records().eq([Cd::parse("x")?.record(), Cd::parse("x4o3o")?.record()]));
    /// let refused = PlaceMark::Refused(CdError::NoDiagram);
    /// assert_eq!(rescue.marks, [PlaceMark::Kept, refused, PlaceMark::Kept, PlaceMark::OutOfOrder]);
    /// assert_eq!(rescue.tail, 130);
    /// # Ok::<(), CdError>(())
    /// ```
    #[must_use]
    pub fn rescue(file: &[u8]) -> Rescue {
        let rescued = ffi::shelf_rescue(file);
        let (bytes, marks, tail) = rescued
            .unwrap_or_else(|e| unreachable!("buffers as long as the file were refused: {e}"));
        Rescue {
            shelf: Self { bytes },
            marks: marks.into_iter().map(PlaceMark::from_number).collect(),
            tail,
        }
    }

    /// How many places the shelf has, each with its record.
    #[must_use]
    pub fn places(&self) -> usize {
        self.laid_out().len()
    }

    /// Whether the shelf has no places.
    #[must_use]
    pub fn is_empty(&self) -> bool {
        self.bytes.is_empty()
    }

    /// The record at a place, counted from 0, or `None` past the last one.
    #[must_use]
    pub fn record(&self, place: usize) -> Option<Record> {
        self.laid_out().get(place).map(Record::from_trusted_bytes)
    }

    /// An iterator over the records, by rising place and so by rising record.
    ///
    /// ```
    /// use lexicon::{Cd, Shelf};
    ///
    /// let mut shelf = Shelf::default();
    /// for text in ["x3o4o", "x", "x5/2o5o"] {
    ///     shelf.add(&Cd::parse(text)?.record())?;
    /// }
    /// let nodes = shelf.records().map(|record| record.diagram().nodes.len());
    /// assert!(nodes.eq([1, 3, 3]));
    /// # Ok::<(), lexicon::CdError>(())
    /// ```
    pub fn records(&self) -> impl DoubleEndedIterator<Item = Record> + ExactSizeIterator + '_ {
        self.laid_out().iter().map(Record::from_trusted_bytes)
    }

    /// `Ok` with the place of a record, or `Err` with the place where it would stand, the number of
    /// records that are less: as `binary_search` of a slice tells it.
    ///
    /// It reads the record, in the time of [`Record::from_bytes`], and compares it with about
    /// log2([`places`](Self::places)) places, without checking the file again. For a file that the
    /// check accepted, the call behind it, `lexicon_shelf_bisect`, is proved to answer what
    /// `lexicon_shelf_find` answers, which checks it (`bisect-as-find` in
    /// `crates/lexicon_c/proofs/Shelves.antt`). What [`Shelf::add`] makes is proved to be a file that
    /// the check accepts (`written-passes` in `crates/shelf/proofs/Librarian.antt`).
    ///
    /// # Errors
    ///
    /// [`CdError::NoDiagram`] or [`CdError::NotSmallest`], but only if
    /// [`Record::from_trusted_bytes`] was given bytes that [`Record::from_bytes`] refuses.
    ///
    /// ```
    /// use lexicon::{Cd, Shelf};
    ///
    /// let mut shelf = Shelf::default();
    /// shelf.add(&Cd::parse("x3o4o")?.record())?;
    /// assert_eq!(shelf.find(&Cd::parse("o4o3x")?.record())?, Ok(0));
    /// assert_eq!(shelf.find(&Cd::parse("x3o3o3o")?.record())?, Err(1));
    /// # Ok::<(), lexicon::CdError>(())
    /// ```
    ///
    /// [`CdError::NoDiagram`]: crate::CdError::NoDiagram
    /// [`CdError::NotSmallest`]: crate::CdError::NotSmallest
    pub fn find(&self, record: &Record) -> CdResult<Result<usize, usize>> {
        ffi::shelf_bisect(&self.bytes, record.as_bytes())
    }

    /// Whether a record is on the shelf, as [`Shelf::find`] tells it.
    ///
    /// # Errors
    ///
    /// As [`Shelf::find`].
    pub fn contains(&self, record: &Record) -> CdResult<bool> {
        Ok(self.find(record)?.is_ok())
    }

    /// Adds a record, and returns its place, the one where it would stand by [`Shelf::find`]. The
    /// records from there on move by one place. A refusal leaves the shelf as it was.
    ///
    /// The call behind it, `lexicon_shelf_add`, checks the whole file again and writes a new one, so
    /// it takes the time of [`Shelf::new`] and as much memory again as the file has. To file many
    /// records at once, sort them, drop those that are equal, and give their bytes to
    /// [`Shelf::new`].
    ///
    /// # Errors
    ///
    /// [`CdError::OnShelf`] with its place if the record is there already. Before that, but only if
    /// [`Record::from_trusted_bytes`] was given bytes that [`Record::from_bytes`] refuses,
    /// [`CdError::NoDiagram`] or [`CdError::NotSmallest`].
    ///
    /// The command `lexicon shelf add` replaces a file safely. In short, and without its lock:
    ///
    /// ```no_run
    /// use lexicon::{Cd, Shelf};
    ///
    /// let mut shelf = Shelf::new(std::fs::read("articles.shelf")?)?;
    /// let place = shelf.add(&Cd::parse("x3o4o")?.record())?;
    /// std::fs::write("articles.shelf.new", &shelf)?;
    /// std::fs::rename("articles.shelf.new", "articles.shelf")?;
    /// println!("filed at place {place} of {}", shelf.places());
    /// # Ok::<(), Box<dyn std::error::Error>>(())
    /// ```
    ///
    /// [`CdError::OnShelf`]: crate::CdError::OnShelf
    /// [`CdError::NoDiagram`]: crate::CdError::NoDiagram
    /// [`CdError::NotSmallest`]: crate::CdError::NotSmallest
    pub fn add(&mut self, record: &Record) -> CdResult<usize> {
        let (bytes, place) = ffi::shelf_add(&self.bytes, record.as_bytes())?;
        self.bytes = bytes;
        Ok(place)
    }

    /// The bytes of the file.
    #[must_use]
    pub fn as_bytes(&self) -> &[u8] {
        &self.bytes
    }

    /// The bytes of the file, without a copy.
    #[must_use]
    pub fn into_bytes(self) -> Vec<u8> {
        self.bytes
    }

    /// The bytes of each place. None are left over.
    fn laid_out(&self) -> &[[u8; RECORD]] {
        self.bytes.as_chunks().0
    }
}

impl AsRef<[u8]> for Shelf {
    /// As [`Shelf::as_bytes`].
    fn as_ref(&self) -> &[u8] {
        &self.bytes
    }
}

impl fmt::Debug for Shelf {
    /// Writes how many places there are, since the bytes may be many.
    fn fmt(&self, f: &mut fmt::Formatter<'_>) -> fmt::Result {
        f.debug_struct("Shelf")
            .field("places", &self.places())
            .finish_non_exhaustive()
    }
}
