//! Refusals.

use std::{error::Error, fmt};

use crate::diagram::part;

/// What a call gives, or why it refuses.
pub type CdResult<T> = Result<T, CdError>;

/// Why a text, a record, mirrors, walls, a generator, a family, a shelf or a name is refused.
/// Positions, nodes, columns, edges and places are counted from 0, positions in bytes.
///
/// ```
/// use lexicon::{Cd, CdError};
///
/// let refusal = Cd::parse("x4294967296o").unwrap_err();
/// assert_eq!(refusal, CdError::ParseError { pos: 10 });
/// assert_eq!(refusal.number(), 5);
/// assert_eq!(refusal.to_string(), "parsing failed at position 10");
///
/// let refusal = Cd::parse("x3o3*a").unwrap_err();
/// assert_eq!(refusal, CdError::RepeatEdge { a: 1, b: 0 });
/// ```
#[derive(Clone, Copy, Debug, PartialEq, Eq, Hash)]
#[non_exhaustive]
pub enum CdError {
    /// The text has more than 255 bytes.
    TooLong {
        /// Always 255, the first byte too many.
        pos: usize,
    },

    /// A byte of the text is 128 or more.
    NotAscii {
        /// The first such byte.
        pos: usize,
    },

    /// A parenthesis was opened but not closed.
    MismatchedParenthesis {
        /// The length of the text.
        pos: usize,
    },

    /// The text ends where a node, a reference's letter or the end of an edge is due.
    UnexpectedEnding {
        /// The length of the text.
        pos: usize,
    },

    /// A length in parentheses, or a part of an edge, is no number.
    ParseError {
        /// Its last byte; for `()` the `)`, for an empty part the slash before it.
        pos: usize,
    },

    /// A byte fits nothing, or a length is nan.
    InvalidSymbol {
        /// The byte, or the last letter of nan.
        pos: usize,
    },

    /// The numbers of an edge are none that an edge has: `num` > 1 and 0 < `den` < `num`.
    InvalidEdge {
        /// The numerator as typed.
        num: u32,

        /// The denominator as typed, 1 if there is none.
        den: u32,

        /// The edge's last byte.
        pos: usize,
    },

    /// Two nodes are joined twice.
    RepeatEdge {
        /// The node that the second edge comes from.
        a: usize,

        /// The node that it goes to.
        b: usize,
    },

    /// A length in parentheses has too many digits or too large a power of ten.
    OutOfRange {
        /// Its last byte.
        pos: usize,
    },

    /// The diagram has a tenth node.
    TooManyNodes {
        /// The first byte of the tenth node.
        pos: usize,
    },

    /// An edge goes to a node that the diagram lacks.
    MissingNode {
        /// The edge, of all that the text has.
        edge: usize,
    },

    /// A buffer is too short. The buffers of this crate are long enough, so it never returns this;
    /// it is here because the library has the number.
    ShortBuffer,

    /// A record is not 370 bytes long.
    RecordLength,

    /// The bytes of a record are not what is laid out for any diagram in any numbering: the count, a
    /// kind, a value, a fraction or a filler is bad.
    NoDiagram,

    /// The mirrors, or the walls, don't exist: they would not fit in spherical space.
    Crowded {
        /// The first that doesn't fit.
        column: usize,
    },

    /// A length is infinite, so that there is no generator.
    Infinite {
        /// The first such node.
        node: usize,
    },

    /// No family has this letter and size.
    NoFamily,

    /// The length of a shelf file is no multiple of 370: it was cut, or is no shelf file.
    ShelfLength,

    /// The bytes at a place of a shelf file can't be read as a record, or are not greater in byte
    /// order than those at the place before.
    ShelfPlace {
        /// The first such place.
        place: usize,
    },

    /// A record that is to be added is already on the shelf.
    OnShelf {
        /// Its place.
        place: usize,
    },

    /// No name of a finite group fits a component of the diagram: its group is infinite, or an edge of
    /// it is a fraction such as 5/2.
    NoName {
        /// The lowest node of the first such component.
        node: usize,
    },

    /// A record is well laid out, but not the smallest of its renumberings: it tells a figure under
    /// another numbering than the filed one, and must not serve as a key. Each text of the figure
    /// gets the right record, by [`Cd::record`](crate::Cd::record).
    NotSmallest,

    /// A text has an infinite length, such as `(inf)`, and was not read by
    /// [`Cd::parse_with_infinite`](crate::Cd::parse_with_infinite).
    InfiniteLength {
        /// Its last byte before the `)`.
        pos: usize,
    },
}

impl CdError {
    /// The number of this refusal in the specification and in `lexicon.h`, 1 to 23, for logs and for
    /// messages to programs in other languages.
    #[must_use]
    pub fn number(&self) -> u32 {
        match self {
            Self::TooLong { .. } => 1,
            Self::NotAscii { .. } => 2,
            Self::MismatchedParenthesis { .. } => 3,
            Self::UnexpectedEnding { .. } => 4,
            Self::ParseError { .. } => 5,
            Self::InvalidSymbol { .. } => 6,
            Self::InvalidEdge { .. } => 7,
            Self::RepeatEdge { .. } => 8,
            Self::OutOfRange { .. } => 9,
            Self::TooManyNodes { .. } => 10,
            Self::MissingNode { .. } => 11,
            Self::ShortBuffer => 12,
            Self::RecordLength => 13,
            Self::NoDiagram => 14,
            Self::Crowded { .. } => 15,
            Self::Infinite { .. } => 16,
            Self::NoFamily => 17,
            Self::ShelfLength => 18,
            Self::ShelfPlace { .. } => 19,
            Self::OnShelf { .. } => 20,
            Self::NoName { .. } => 21,
            Self::NotSmallest => 22,
            Self::InfiniteLength { .. } => 23,
        }
    }

    /// The fields of this refusal in the specification's order, which is that of the case's: for
    /// [`InvalidEdge`](Self::InvalidEdge) the numerator, the denominator and the position.
    ///
    /// ```
    /// use lexicon::Cd;
    ///
    /// assert_eq!(Cd::parse("x1o").unwrap_err().fields(), [1, 1, 1]);
    /// ```
    #[must_use]
    pub fn fields(&self) -> Vec<usize> {
        match *self {
            Self::InvalidEdge { num, den, pos } => vec![num as usize, den as usize, pos],
            Self::RepeatEdge { a, b } => vec![a, b],
            Self::MissingNode { edge: field }
            | Self::Crowded { column: field }
            | Self::Infinite { node: field }
            | Self::ShelfPlace { place: field }
            | Self::OnShelf { place: field }
            | Self::NoName { node: field } => vec![field],
            _ => self.position().into_iter().collect(),
        }
    }

    /// The position in the text that this refusal tells, counted in bytes from 0. Of the refusals of
    /// texts only [`RepeatEdge`](Self::RepeatEdge) and [`MissingNode`](Self::MissingNode) tell none.
    ///
    /// ```
    /// use lexicon::Cd;
    ///
    /// assert_eq!(Cd::parse("x3_").unwrap_err().position(), Some(2));
    /// assert_eq!(Cd::parse("x3o3*a").unwrap_err().position(), None);
    /// ```
    #[must_use]
    pub fn position(&self) -> Option<usize> {
        match *self {
            Self::TooLong { pos }
            | Self::NotAscii { pos }
            | Self::MismatchedParenthesis { pos }
            | Self::UnexpectedEnding { pos }
            | Self::ParseError { pos }
            | Self::InvalidSymbol { pos }
            | Self::InvalidEdge { pos, .. }
            | Self::OutOfRange { pos }
            | Self::TooManyNodes { pos }
            | Self::InfiniteLength { pos } => Some(pos),
            _ => None,
        }
    }

    /// The refusal that the library tells by its number and fields.
    pub(crate) fn from_numbers([number, a, b, c]: [usize; 4]) -> Self {
        match number {
            1 => Self::TooLong { pos: a },
            2 => Self::NotAscii { pos: a },
            3 => Self::MismatchedParenthesis { pos: a },
            4 => Self::UnexpectedEnding { pos: a },
            5 => Self::ParseError { pos: a },
            6 => Self::InvalidSymbol { pos: a },
            7 => Self::InvalidEdge {
                num: part(a), // else 5 refuses the text
                den: part(b),
                pos: c,
            },
            8 => Self::RepeatEdge { a, b },
            9 => Self::OutOfRange { pos: a },
            10 => Self::TooManyNodes { pos: a },
            11 => Self::MissingNode { edge: a },
            12 => Self::ShortBuffer,
            13 => Self::RecordLength,
            14 => Self::NoDiagram,
            15 => Self::Crowded { column: a },
            16 => Self::Infinite { node: a },
            17 => Self::NoFamily,
            18 => Self::ShelfLength,
            19 => Self::ShelfPlace { place: a },
            20 => Self::OnShelf { place: a },
            21 => Self::NoName { node: a },
            22 => Self::NotSmallest,
            23 => Self::InfiniteLength { pos: a },
            _ => unreachable!("lexicon.h has no refusal {number}"),
        }
    }
}

impl fmt::Display for CdError {
    /// Writes miratope-core's words where it has the case.
    fn fmt(&self, f: &mut fmt::Formatter<'_>) -> fmt::Result {
        match *self {
            Self::TooLong { pos } => write!(f, "CD too long at position {pos}"),
            Self::NotAscii { pos } => write!(f, "non-ASCII byte at position {pos}"),
            Self::MismatchedParenthesis { pos } => {
                write!(f, "mismatched parenthesis at position {pos}")
            }
            Self::UnexpectedEnding { pos } => write!(f, "CD ended unexpectedly at position {pos}"),
            Self::ParseError { pos } => write!(f, "parsing failed at position {pos}"),
            Self::InvalidSymbol { pos } => write!(f, "invalid symbol found at position {pos}"),
            Self::InvalidEdge { num, den, pos } => {
                write!(f, "invalid edge {num}/{den} at position {pos}")
            }
            Self::RepeatEdge { a, b } => write!(f, "repeat edge between {a} and {b}"),
            Self::OutOfRange { pos } => write!(f, "number out of range at position {pos}"),
            Self::TooManyNodes { pos } => write!(f, "too many nodes at position {pos}"),
            Self::MissingNode { edge } => write!(f, "missing node in edge {edge}"),
            Self::ShortBuffer => write!(f, "buffer too short"),
            Self::RecordLength => write!(f, "record not 370 bytes long"),
            Self::NoDiagram => write!(
                f,
                "record not the layout of any diagram: bad count, kind, value, fraction or filler"
            ),
            Self::Crowded { column } => {
                write!(f, "mirror or wall {column} does not fit in spherical space")
            }
            Self::Infinite { node } => write!(f, "infinite length at node {node}"),
            Self::NoFamily => write!(f, "no family of this letter and size"),
            Self::ShelfLength => {
                write!(f, "no shelf file, or a cut one: length no multiple of 370")
            }
            Self::ShelfPlace { place } => write!(
                f,
                "shelf file wrong at place {place}: record unreadable, or not greater than the one before"
            ),
            Self::OnShelf { place } => write!(f, "record already on the shelf, at place {place}"),
            Self::NoName { node } => write!(
                f,
                "no name of a finite group fits the component of node {node}"
            ),
            Self::NotSmallest => write!(
                f,
                "record well laid out, but not the smallest numbering: file the figure's text again"
            ),
            Self::InfiniteLength { pos } => write!(f, "infinite length at position {pos}"),
        }
    }
}

impl Error for CdError {}
