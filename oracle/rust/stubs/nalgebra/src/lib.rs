//! Stands in for nalgebra: what cox/mod.rs and cd.rs call, and `as_slice` to see what they answer. nalgebra sums dot
//! products and norms in blocks; here they run by rising index from 0.0, as document 01 says.

use std::ops::{Index, IndexMut, Mul, Range, RangeInclusive, SubAssign};

pub trait Scalar {}
impl<T> Scalar for T {}

pub trait RealField {}
impl<T> RealField for T {}

/// A vector that owns its entries.
#[derive(Clone, Debug, PartialEq)]
pub struct DVector<T>(Vec<T>);

impl<T> DVector<T> {
    pub fn from_iterator(dim: usize, entries: impl Iterator<Item = T>) -> Self {
        Self(entries.take(dim).collect())
    }

    pub fn as_slice(&self) -> &[T] {
        &self.0
    }
}

impl DVector<f64> {
    pub fn norm(&self) -> f64 {
        DVectorSlice(&self.0).norm_squared().sqrt()
    }
}

/// A column, or its first rows, lent.
#[derive(Clone, Copy)]
pub struct DVectorSlice<'a, T>(&'a [T]);

impl<'a, T> DVectorSlice<'a, T> {
    pub fn rows_range(&self, rows: RangeInclusive<usize>) -> Self {
        Self(&self.0[rows])
    }
}

impl DVectorSlice<'_, f64> {
    pub fn dot(&self, other: &DVectorSlice<f64>) -> f64 {
        let mut sum = 0.0;
        for (a, b) in self.0.iter().zip(other.0) {
            sum += a * b;
        }
        sum
    }

    pub fn norm_squared(&self) -> f64 {
        self.dot(self)
    }
}

impl<T> Index<usize> for DVectorSlice<'_, T> {
    type Output = T;

    fn index(&self, row: usize) -> &T {
        &self.0[row]
    }
}

impl Mul<f64> for DVectorSlice<'_, f64> {
    type Output = DVector<f64>;

    fn mul(self, factor: f64) -> DVector<f64> {
        DVector(self.0.iter().map(|entry| entry * factor).collect())
    }
}

/// A column, lent to be written.
pub struct DVectorSliceMut<'a, T>(&'a mut [T]);

impl<T> DVectorSliceMut<'_, T> {
    pub fn rows_range(&self, rows: RangeInclusive<usize>) -> DVectorSlice<'_, T> {
        DVectorSlice(&self.0[rows])
    }
}

impl DVectorSliceMut<'_, f64> {
    pub fn dot(&self, other: &DVectorSlice<f64>) -> f64 {
        DVectorSlice(self.0).dot(other)
    }

    pub fn norm_squared(&self) -> f64 {
        DVectorSlice(self.0).norm_squared()
    }
}

impl<T> Index<usize> for DVectorSliceMut<'_, T> {
    type Output = T;

    fn index(&self, row: usize) -> &T {
        &self.0[row]
    }
}

impl<T> IndexMut<usize> for DVectorSliceMut<'_, T> {
    fn index_mut(&mut self, row: usize) -> &mut T {
        &mut self.0[row]
    }
}

impl SubAssign<DVector<f64>> for DVectorSliceMut<'_, f64> {
    fn sub_assign(&mut self, other: DVector<f64>) {
        for (a, b) in self.0.iter_mut().zip(other.0) {
            *a -= b;
        }
    }
}

/// Some columns of a matrix, lent.
pub struct DMatrixSlice<'a, T> {
    rows: usize,
    data: &'a [T],
}

impl<'a, T> DMatrixSlice<'a, T> {
    pub fn column_iter(&self) -> impl Iterator<Item = DVectorSlice<'a, T>> {
        self.data.chunks(self.rows.max(1)).map(DVectorSlice)
    }
}

/// A matrix, column after column.
#[derive(Clone, Debug, PartialEq)]
pub struct DMatrix<T> {
    rows: usize,
    data: Vec<T>,
}

impl<T> DMatrix<T> {
    pub fn from_fn(rows: usize, columns: usize, mut entry: impl FnMut(usize, usize) -> T) -> Self {
        let mut data = Vec::with_capacity(rows * columns);
        for column in 0..columns {
            data.extend((0..rows).map(|row| entry(row, column)));
        }
        Self { rows, data }
    }

    pub fn nrows(&self) -> usize {
        self.rows
    }

    pub fn as_slice(&self) -> &[T] {
        &self.data
    }

    pub fn iter_mut(&mut self) -> impl Iterator<Item = &mut T> {
        self.data.iter_mut()
    }

    pub fn column_iter(&self) -> impl Iterator<Item = DVectorSlice<'_, T>> {
        let all = DMatrixSlice { rows: self.rows, data: &self.data };
        all.column_iter()
    }

    pub fn column_iter_mut(&mut self) -> impl Iterator<Item = DVectorSliceMut<'_, T>> {
        self.data.chunks_mut(self.rows.max(1)).map(DVectorSliceMut)
    }

    /// Some columns to read, and one right of them to write.
    pub fn columns_range_pair_mut(
        &mut self,
        left: Range<usize>,
        right: usize,
    ) -> (DMatrixSlice<'_, T>, DVectorSliceMut<'_, T>) {
        let rows = self.rows;
        let (before, after) = self.data.split_at_mut(right * rows);
        let data = &before[left.start * rows..left.end * rows];
        (DMatrixSlice { rows, data }, DVectorSliceMut(&mut after[..rows]))
    }
}

impl DMatrix<f64> {
    pub fn zeros(rows: usize, columns: usize) -> Self {
        Self::from_fn(rows, columns, |_, _| 0.0)
    }

    pub fn identity(rows: usize, columns: usize) -> Self {
        Self::from_fn(rows, columns, |row, column| if row == column { 1.0 } else { 0.0 })
    }

    /// Solves for `b` in place, from the last row up. False where nalgebra's is: a zero on the diagonal.
    pub fn solve_upper_triangular_mut(&self, b: &mut DVector<f64>) -> bool {
        for i in (0..self.rows).rev() {
            if self[(i, i)] == 0.0 {
                return false;
            }
            b.0[i] /= self[(i, i)];
            for r in 0..i {
                b.0[r] -= b.0[i] * self[(r, i)];
            }
        }
        true
    }
}

impl<T> Index<(usize, usize)> for DMatrix<T> {
    type Output = T;

    fn index(&self, (row, column): (usize, usize)) -> &T {
        &self.data[column * self.rows + row]
    }
}

impl<T> IndexMut<(usize, usize)> for DMatrix<T> {
    fn index_mut(&mut self, (row, column): (usize, usize)) -> &mut T {
        &mut self.data[column * self.rows + row]
    }
}

/// The matrix of one entry, the only one that `cox` writes down.
#[macro_export]
macro_rules! dmatrix {
    ($entry:expr) => {
        $crate::DMatrix::from_fn(1, 1, |_, _| $entry)
    };
}
