//! Coxeter matrices, their mirrors and their walls.

use std::ops::Index;

use crate::{
    ffi::{self, Written, LIMIT, SQUARE},
    CdResult,
};

/// The Coxeter matrix of a diagram or of a family. `cox[(i, j)]` is the value of the edge between
/// nodes i and j, 2 if nothing joins them, and 1 if they are the same node.
///
/// The families A, B, D, E and H have up to nine nodes.
///
/// ```
/// use lexicon::{CdError, Cox};
///
/// let b3 = Cox::b(3)?;
/// assert_eq!((b3[(0, 1)], b3[(1, 2)], b3[(0, 2)]), (4.0, 3.0, 2.0));
/// assert_eq!(b3, Cox::parse("x4o3o")?);
///
/// assert_eq!(Cox::e(3).unwrap_err(), CdError::NoFamily);
/// assert_eq!(Cox::e(9)?.normals().unwrap_err(), CdError::Crowded { column: 8 });
/// # Ok::<(), CdError>(())
/// ```
#[derive(Clone, Debug)]
pub struct Cox {
    source: Source,
    matrix: Matrix,
}

/// What the library computes the mirrors and walls from, since it takes no matrix.
#[derive(Clone, Debug)]
enum Source {
    Text { text: String, wish: bool },
    Family { letter: u8, size: usize },
}

impl Cox {
    /// Reads a diagram and turns it into its matrix. For a text with infinite lengths, which play no
    /// part in the matrix, take [`Cd::cox`](crate::Cd::cox) of
    /// [`Cd::parse_with_infinite`](crate::Cd::parse_with_infinite).
    ///
    /// # Errors
    ///
    /// As [`Cd::parse`](crate::Cd::parse).
    pub fn parse(input: &str) -> CdResult<Self> {
        Self::read(input, false)
    }

    /// With the wish, lengths may be infinite.
    pub(crate) fn read(input: &str, wish: bool) -> CdResult<Self> {
        let (square, [dim, ..]) = ffi::matrix(input.as_bytes(), wish)?;
        let text = input.to_owned();
        Ok(Self {
            source: Source::Text { text, wish },
            matrix: Matrix::from_square(&square, dim),
        })
    }

    /// The matrix of the group An, for n from 1 to 9: a chain of 3s.
    ///
    /// # Errors
    ///
    /// [`CdError::NoFamily`](crate::CdError::NoFamily) for another n.
    pub fn a(n: usize) -> CdResult<Self> {
        Self::family(b'A', n)
    }

    /// The matrix of the group Bn, for n from 2 to 9: a 4, then a chain of 3s.
    ///
    /// # Errors
    ///
    /// [`CdError::NoFamily`](crate::CdError::NoFamily) for another n.
    pub fn b(n: usize) -> CdResult<Self> {
        Self::family(b'B', n)
    }

    /// The matrix of the group Dn, for n from 3 to 9: a chain of 3s from node 1 on, and a 3 between
    /// nodes 0 and 2.
    ///
    /// # Errors
    ///
    /// [`CdError::NoFamily`](crate::CdError::NoFamily) for another n.
    pub fn d(n: usize) -> CdResult<Self> {
        Self::family(b'D', n)
    }

    /// The matrix of the group En, for n from 4 to 9: a chain of 3s from node 1 on, and a 3 between
    /// nodes 0 and 3.
    ///
    /// # Errors
    ///
    /// [`CdError::NoFamily`](crate::CdError::NoFamily) for another n.
    pub fn e(n: usize) -> CdResult<Self> {
        Self::family(b'E', n)
    }

    /// The matrix of the group Hn, for n from 2 to 9: a 5, then a chain of 3s.
    ///
    /// # Errors
    ///
    /// [`CdError::NoFamily`](crate::CdError::NoFamily) for another n.
    pub fn h(n: usize) -> CdResult<Self> {
        Self::family(b'H', n)
    }

    fn family(letter: u8, size: usize) -> CdResult<Self> {
        let (square, [dim, ..]) = ffi::family_matrix(letter, size)?;
        Ok(Self {
            source: Source::Family { letter, size },
            matrix: Matrix::from_square(&square, dim),
        })
    }

    /// The number of rows, which is that of the nodes.
    #[must_use]
    pub fn dim(&self) -> usize {
        self.matrix.dim()
    }

    /// The mirrors as miratope-core has them: an upper triangular matrix whose columns are unit
    /// normals to them. Those of nodes that an edge m joins meet with the product cos(π/m); Coxeter's,
    /// which meet with −cos(π/m), are [`Cox::walls`].
    ///
    /// # Errors
    ///
    /// [`CdError::Crowded`](crate::CdError::Crowded) if they do not fit in spherical space.
    ///
    /// ```
    /// use lexicon::{CdError, Cox};
    ///
    /// let mirrors = Cox::parse("x3o")?.normals()?;
    /// assert_eq!(mirrors.column(0), [1.0, 0.0]);
    /// assert!((mirrors[(0, 1)] - 0.5).abs() < 1e-15);
    /// assert!((mirrors[(1, 1)] - 0.75_f64.sqrt()).abs() < 1e-15);
    ///
    /// let tiling = Cox::parse("x6o3o")?;
    /// assert_eq!(tiling.normals().unwrap_err(), CdError::Crowded { column: 2 });
    /// # Ok::<(), CdError>(())
    /// ```
    pub fn normals(&self) -> CdResult<Matrix> {
        self.square(ffi::mirrors, ffi::family_mirrors)
    }

    /// The walls, which are the mirrors as Coxeter has them: an upper triangular matrix whose columns
    /// are unit normals to them. Those of nodes that an edge m joins meet with the product −cos(π/m).
    /// From them [`Cd::wall_generator`](crate::Cd::wall_generator) has its distances.
    ///
    /// # Errors
    ///
    /// [`CdError::Crowded`](crate::CdError::Crowded) if they do not fit in spherical space. Where
    /// the nodes make a cycle, that may be so of the walls and not of [`Cox::normals`], or the other
    /// way round.
    ///
    /// ```
    /// use lexicon::{CdError, Cox};
    ///
    /// let walls = Cox::parse("x3o")?.walls()?;
    /// assert_eq!(walls.column(0), [1.0, 0.0]);
    /// assert!((walls[(0, 1)] + 0.5).abs() < 1e-15);
    /// assert!((walls[(1, 1)] - 0.75_f64.sqrt()).abs() < 1e-15);
    ///
    /// let tiling = Cox::parse("o3o3o3*a")?;
    /// assert_eq!(tiling.walls().unwrap_err(), CdError::Crowded { column: 2 });
    /// assert!(tiling.normals().is_ok());
    /// # Ok::<(), CdError>(())
    /// ```
    pub fn walls(&self) -> CdResult<Matrix> {
        self.square(ffi::walls, ffi::family_walls)
    }

    /// What the call for texts or that for families writes, whichever this is from.
    fn square(
        &self,
        of_text: fn(&[u8], bool) -> Written<f64, SQUARE>,
        of_family: fn(u8, usize) -> Written<f64, SQUARE>,
    ) -> CdResult<Matrix> {
        let (square, [dim, ..]) = match &self.source {
            Source::Text { text, wish } => of_text(text.as_bytes(), *wish)?,
            Source::Family { letter, size } => of_family(*letter, *size)?,
        };
        Ok(Matrix::from_square(&square, dim))
    }
}

impl PartialEq for Cox {
    /// Compares the matrices alone: a family's matrix may equal that of a text.
    fn eq(&self, other: &Self) -> bool {
        self.matrix == other.matrix
    }
}

impl Index<(usize, usize)> for Cox {
    type Output = f64;

    /// The entry of a row and a column.
    ///
    /// # Panics
    ///
    /// If either is out of range.
    fn index(&self, at: (usize, usize)) -> &f64 {
        &self.matrix[at]
    }
}

/// A square matrix of doubles: `matrix[(i, j)]` is row i of column j.
#[derive(Clone, Debug, PartialEq)]
pub struct Matrix {
    dim: usize,
    /// Column after column.
    entries: Vec<f64>,
}

impl Matrix {
    /// The first `dim` rows and columns of a square that the library laid out, nine rows a column.
    pub(crate) fn from_square(square: &[f64], dim: usize) -> Self {
        let columns = square.chunks(LIMIT).take(dim);
        let entries = columns.flat_map(|column| &column[..dim]).copied().collect();
        Self { dim, entries }
    }

    /// The number of rows, and of columns.
    #[must_use]
    pub fn dim(&self) -> usize {
        self.dim
    }

    /// The column of this index; of mirrors or walls, the normal of this node's.
    ///
    /// # Panics
    ///
    /// If it is out of range.
    #[must_use]
    pub fn column(&self, column: usize) -> &[f64] {
        assert!(column < self.dim, "column {column} of {}", self.dim);
        &self.entries[self.dim * column..][..self.dim]
    }
}

impl Index<(usize, usize)> for Matrix {
    type Output = f64;

    /// The entry of a row and a column.
    ///
    /// # Panics
    ///
    /// If either is out of range.
    fn index(&self, (row, column): (usize, usize)) -> &f64 {
        &self.column(column)[row]
    }
}
