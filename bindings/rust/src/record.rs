//! Filing records.

use std::{error::Error, fmt, str::FromStr};

use crate::{
    ffi::{self, RECORD},
    CdError, CdResult, Diagram,
};

/// The filing record of a figure, 370 bytes.
///
/// It comes from [`Cd::record`], or from bytes or digits that the library has read back, and is
/// then the record of some diagram; only [`Record::from_trusted_bytes`] leaves that to its caller.
/// Records are ordered byte by byte.
///
/// As a text it is 740 hexadecimal digits, written in lower case and read in either:
///
/// ```
/// use lexicon::{Cd, Record};
///
/// let record = Cd::parse("x4o3o")?.record();
/// let digits = record.to_string();
/// assert!(digits.starts_with("03010000000000000000"));
/// assert_eq!(digits.parse::<Record>()?, record);
/// # Ok::<(), Box<dyn std::error::Error>>(())
/// ```
///
/// It serves as a key, so that each figure is filed once:
///
/// ```
/// use std::collections::HashMap;
/// use lexicon::Cd;
///
/// let mut articles = HashMap::new();
/// articles.insert(Cd::parse("x3o4o")?.record(), "Octahedron");
/// assert_eq!(articles[&Cd::parse("o4o3x")?.record()], "Octahedron");
/// # Ok::<(), lexicon::CdError>(())
/// ```
///
/// [`Cd::record`]: crate::Cd::record
#[derive(Clone, Copy, PartialEq, Eq, PartialOrd, Ord, Hash)]
pub struct Record([u8; Record::LEN]);

impl Record {
    /// How many bytes a record has.
    pub const LEN: usize = RECORD;

    /// The record of a text and the numbering that gives it, as of
    /// [`Cd::record_and_numbering`](crate::Cd::record_and_numbering), by one call of the library:
    /// for a program that files many texts and needs no diagrams. `infinite` is the wish for
    /// infinite lengths, as in [`Cd::parse_with_infinite`](crate::Cd::parse_with_infinite).
    ///
    /// # Errors
    ///
    /// As [`Cd::parse`](crate::Cd::parse).
    ///
    /// ```
    /// use lexicon::{Cd, CdError, Record};
    ///
    /// let filed = Record::of_text("x3o4o", false)?;
    /// assert_eq!(filed, Cd::parse("x3o4o")?.record_and_numbering());
    /// assert_eq!(Record::of_text("x1o", false).unwrap_err().number(), 7);
    /// # Ok::<(), CdError>(())
    /// ```
    pub fn of_text(text: impl AsRef<[u8]>, infinite: bool) -> CdResult<(Self, Vec<usize>)> {
        let mut record = Self([0; RECORD]);
        let numbering = record.write(text, infinite)?;
        Ok((record, numbering))
    }

    /// Makes this the record of a text, and returns the numbering that gives it: as
    /// [`Record::of_text`], for a program that files so many texts that moving 370 bytes counts. A
    /// refusal leaves it as it was.
    ///
    /// # Errors
    ///
    /// As [`Cd::parse`](crate::Cd::parse).
    ///
    /// ```
    /// use lexicon::{Cd, Record};
    ///
    /// let (mut record, _) = Record::of_text("x4o3o", false)?;
    /// assert!(record.write("x1o", false).is_err());
    /// assert_eq!(record, Cd::parse("x4o3o")?.record());
    /// assert_eq!(record.write("x3o4o", false)?, [2, 1, 0]);
    /// assert_eq!(record, Cd::parse("x3o4o")?.record());
    /// # Ok::<(), lexicon::CdError>(())
    /// ```
    pub fn write(&mut self, text: impl AsRef<[u8]>, infinite: bool) -> CdResult<Vec<usize>> {
        ffi::write_record(text.as_ref(), infinite, &mut self.0)
    }

    /// Takes the bytes of a record, in about the time of [`Cd::record`](crate::Cd::record), since they
    /// must be the smallest that any numbering gives.
    ///
    /// # Errors
    ///
    /// [`CdError::RecordLength`] if there are not 370 of them, else [`CdError::NoDiagram`] if they are
    /// not what is laid out for any diagram in any numbering, else [`CdError::NotSmallest`] if
    /// another numbering of their diagram gives smaller ones.
    ///
    /// ```
    /// use lexicon::{Cd, CdError, Record};
    ///
    /// let record = Cd::parse("x4o3o")?.record();
    /// assert_eq!(Record::from_bytes(record.as_bytes()), Ok(record));
    /// assert_eq!(Record::from_bytes(b"x4o3o"), Err(CdError::RecordLength));
    /// assert_eq!(Record::from_bytes(&[255; Record::LEN]), Err(CdError::NoDiagram));
    /// # Ok::<(), CdError>(())
    /// ```
    ///
    /// Bytes that are refused as [`CdError::NotSmallest`] tell a figure. It has one right record, and
    /// each of its texts gets that one:
    ///
    /// ```
    /// use lexicon::{Cd, CdError, Record};
    ///
    /// let mut sent = [0; Record::LEN]; // x4o, numbered as it was typed
    /// sent[..4].copy_from_slice(&[2, 2, 0x3f, 0xf0]);
    /// (sent[10], sent[85], sent[89]) = (1, 4, 1);
    /// assert_eq!(Record::from_bytes(&sent), Err(CdError::NotSmallest));
    ///
    /// let mended = Cd::parse("x4o")?.record();
    /// assert_eq!(mended, Cd::parse("o4x")?.record());
    /// assert_eq!(Record::from_bytes(mended.as_bytes()), Ok(mended));
    /// # Ok::<(), CdError>(())
    /// ```
    pub fn from_bytes(bytes: &[u8]) -> CdResult<Self> {
        ffi::read_record(bytes)?;
        let bytes = bytes.try_into(); // fails on no length that the library accepts
        bytes.map(Self).map_err(|_| CdError::RecordLength)
    }

    /// Takes bytes unchecked, for a program that loads records which this library wrote: it copies
    /// them, where [`Record::from_bytes`] would look for a numbering that gives smaller ones.
    ///
    /// Given other bytes, it returns a key of no figure, of another figure, or a second key of one,
    /// and [`Record::diagram`] panics unless [`Record::from_bytes`] takes them.
    ///
    /// ```
    /// use lexicon::{Cd, Record};
    ///
    /// let record = Cd::parse("x4o3o")?.record();
    /// let stored: Vec<u8> = record.as_bytes().to_vec();
    /// assert_eq!(Record::from_trusted_bytes(stored[..].try_into()?), record);
    /// # Ok::<(), Box<dyn std::error::Error>>(())
    /// ```
    #[must_use]
    pub fn from_trusted_bytes(bytes: &[u8; Self::LEN]) -> Self {
        Self(*bytes)
    }

    /// The bytes, for a file or a database.
    #[must_use]
    pub fn as_bytes(&self) -> &[u8; Self::LEN] {
        &self.0
    }

    /// The diagram, in the record's own numbering, its edges in lowest terms and without loops. It
    /// takes the time of [`Record::from_bytes`].
    ///
    /// # Panics
    ///
    /// If [`Record::from_trusted_bytes`] was given bytes that [`Record::from_bytes`] refuses.
    ///
    /// ```
    /// use lexicon::{Cd, Node};
    ///
    /// let diagram = Cd::parse("x8/2o")?.record().diagram();
    /// assert_eq!(diagram.nodes, [Node::Unringed, Node::Ringed(1.0)]);
    /// assert_eq!(diagram.edges[0].edge.to_string(), "4");
    /// # Ok::<(), lexicon::CdError>(())
    /// ```
    #[must_use]
    pub fn diagram(&self) -> Diagram {
        match ffi::read_record(&self.0) {
            Ok((numbers, [nodes, ..])) => Diagram::from_numbers(&numbers, nodes),
            Err(e) => panic!("a record of trusted bytes was refused: {e}"),
        }
    }
}

impl AsRef<[u8]> for Record {
    /// As [`Record::as_bytes`].
    fn as_ref(&self) -> &[u8] {
        &self.0
    }
}

impl TryFrom<&[u8]> for Record {
    type Error = CdError;

    /// As [`Record::from_bytes`].
    fn try_from(bytes: &[u8]) -> CdResult<Self> {
        Self::from_bytes(bytes)
    }
}

impl fmt::Display for Record {
    /// Writes 740 hexadecimal digits in lower case.
    fn fmt(&self, f: &mut fmt::Formatter<'_>) -> fmt::Result {
        self.0.iter().try_for_each(|byte| write!(f, "{byte:02x}"))
    }
}

impl fmt::Debug for Record {
    fn fmt(&self, f: &mut fmt::Formatter<'_>) -> fmt::Result {
        write!(f, "Record({self})")
    }
}

impl FromStr for Record {
    type Err = RecordError;

    /// Reads 740 hexadecimal digits in either case. The length is tested first, then the digits,
    /// then the bytes, as by [`Record::from_bytes`].
    fn from_str(text: &str) -> Result<Self, RecordError> {
        let len = text.len();
        if len != 2 * Self::LEN {
            return Err(RecordError::Length { len });
        }
        let mut bytes = [0; Self::LEN];
        for (pos, &byte) in text.as_bytes().iter().enumerate() {
            let digit = char::from(byte).to_digit(16);
            #[allow(clippy::cast_possible_truncation, reason = "a digit is at most 15")]
            let digit = digit.ok_or(RecordError::Digit { pos })? as u8;
            bytes[pos / 2] = bytes[pos / 2] << 4 | digit;
        }
        Self::from_bytes(&bytes).map_err(RecordError::Refused)
    }
}

/// Why a text is no record.
///
/// ```
/// use lexicon::{CdError, Record, RecordError};
///
/// let refusal = |text: &str| text.parse::<Record>().unwrap_err();
/// assert_eq!(refusal("03"), RecordError::Length { len: 2 });
/// assert_eq!(refusal(&"0g".repeat(370)), RecordError::Digit { pos: 1 });
/// assert_eq!(refusal(&"01".repeat(370)), RecordError::Refused(CdError::NoDiagram));
/// ```
#[derive(Clone, Copy, Debug, PartialEq, Eq, Hash)]
pub enum RecordError {
    /// The text is not 740 bytes long.
    Length {
        /// How long it is, in bytes.
        len: usize,
    },

    /// A byte is no hexadecimal digit.
    Digit {
        /// The first such byte, from 0.
        pos: usize,
    },

    /// The digits are those of no record. The library's refusal is its [`source`](Error::source):
    /// [`CdError::NoDiagram`] or [`CdError::NotSmallest`].
    Refused(CdError),
}

impl fmt::Display for RecordError {
    fn fmt(&self, f: &mut fmt::Formatter<'_>) -> fmt::Result {
        match self {
            Self::Length { len } => write!(f, "{len} bytes in place of 740 digits"),
            Self::Digit { pos } => write!(f, "no hexadecimal digit at position {pos}"),
            Self::Refused(_) => write!(f, "the digits are those of no record"),
        }
    }
}

impl Error for RecordError {
    fn source(&self) -> Option<&(dyn Error + 'static)> {
        match self {
            Self::Refused(e) => Some(e),
            Self::Length { .. } | Self::Digit { .. } => None,
        }
    }
}
