//! Matrices: the one that owns its entries, stored column after column, and the views into it.

use crate::{ColMut, ColRef, Reborrow, ReborrowMut, RowMut, RowRef};
use std::ops::{Index, IndexMut};

/// A matrix that owns its entries; entry (i, j) stands at place i + j * rows.
#[derive(Clone, Debug, PartialEq)]
pub struct Mat<T> {
    data: Vec<T>,
    nrows: usize,
    ncols: usize,
}

impl<T> Mat<T> {
    pub fn from_fn(nrows: usize, ncols: usize, mut entry: impl FnMut(usize, usize) -> T) -> Self {
        let mut data = Vec::with_capacity(nrows * ncols);
        for j in 0..ncols {
            for i in 0..nrows {
                data.push(entry(i, j));
            }
        }
        Self { data, nrows, ncols }
    }

    pub fn nrows(&self) -> usize {
        self.nrows
    }

    pub fn ncols(&self) -> usize {
        self.ncols
    }

    pub fn shape(&self) -> (usize, usize) {
        (self.nrows, self.ncols)
    }

    pub fn as_ref(&self) -> MatRef<'_, T> {
        MatRef::from_column_major_slice(&self.data, self.nrows, self.ncols)
    }

    pub fn as_mut(&mut self) -> MatMut<'_, T> {
        MatMut::from_column_major_slice_mut(&mut self.data, self.nrows, self.ncols)
    }

    pub fn get(&self, i: usize, j: usize) -> &T {
        self.as_ref().get(i, j)
    }

    pub fn row(&self, i: usize) -> RowRef<'_, T> {
        self.as_ref().row(i)
    }

    pub fn col(&self, j: usize) -> ColRef<'_, T> {
        self.as_ref().col(j)
    }

    pub fn col_mut(&mut self, j: usize) -> ColMut<'_, T> {
        self.as_mut().col_mut(j)
    }

    pub fn col_as_slice(&self, j: usize) -> &[T] {
        assert!(j < self.ncols, "column {j} of {}", self.ncols);
        &self.data[j * self.nrows..(j + 1) * self.nrows]
    }

    pub fn col_as_slice_mut(&mut self, j: usize) -> &mut [T] {
        assert!(j < self.ncols, "column {j} of {}", self.ncols);
        &mut self.data[j * self.nrows..(j + 1) * self.nrows]
    }

    pub fn row_iter(&self) -> impl Iterator<Item = RowRef<'_, T>> {
        (0..self.nrows).map(|i| self.row(i))
    }

    pub fn row_iter_mut(&mut self) -> impl Iterator<Item = RowMut<'_, T>> {
        let mut rows: Vec<Vec<&mut T>> = (0..self.nrows).map(|_| Vec::new()).collect();
        for (place, entry) in self.data.iter_mut().enumerate() {
            rows[place % self.nrows].push(entry);
        }
        rows.into_iter().map(RowMut::new)
    }

    pub fn col_iter_mut(&mut self) -> impl Iterator<Item = ColMut<'_, T>> {
        let (nrows, ncols) = self.shape();
        let mut rest = self.data.as_mut_slice();
        (0..ncols).map(move |_| {
            let (column, after) = std::mem::take(&mut rest).split_at_mut(nrows);
            rest = after;
            ColMut::new(column)
        })
    }

    pub fn transpose(&self) -> MatRef<'_, T> {
        self.as_ref().transpose()
    }

    pub fn submatrix(&self, i: usize, j: usize, nrows: usize, ncols: usize) -> MatRef<'_, T> {
        self.as_ref().submatrix(i, j, nrows, ncols)
    }

    pub fn subcols(&self, start: usize, ncols: usize) -> MatRef<'_, T> {
        self.as_ref().subcols(start, ncols)
    }
}

impl Mat<f64> {
    pub fn zeros(nrows: usize, ncols: usize) -> Self {
        Self::from_fn(nrows, ncols, |_, _| 0.0)
    }

    pub fn ones(nrows: usize, ncols: usize) -> Self {
        Self::from_fn(nrows, ncols, |_, _| 1.0)
    }
}

impl<T> Index<(usize, usize)> for Mat<T> {
    type Output = T;

    fn index(&self, (i, j): (usize, usize)) -> &T {
        self.get(i, j)
    }
}

impl<T> IndexMut<(usize, usize)> for Mat<T> {
    fn index_mut(&mut self, (i, j): (usize, usize)) -> &mut T {
        assert!(i < self.nrows && j < self.ncols, "entry past the end");
        &mut self.data[i + j * self.nrows]
    }
}

/// A matrix for reading; entry (i, j) stands at place i * row_stride + j * col_stride.
#[derive(Debug)]
pub struct MatRef<'a, T> {
    data: &'a [T],
    nrows: usize,
    ncols: usize,
    row_stride: usize,
    col_stride: usize,
}

// Written out, as a derive would ask that the entries can be copied too.
impl<T> Clone for MatRef<'_, T> {
    fn clone(&self) -> Self {
        *self
    }
}

impl<T> Copy for MatRef<'_, T> {}

impl<'a, T> MatRef<'a, T> {
    pub fn from_column_major_slice(data: &'a [T], nrows: usize, ncols: usize) -> Self {
        assert_eq!(data.len(), nrows * ncols, "entries do not fill the matrix");
        Self {
            data,
            nrows,
            ncols,
            row_stride: 1,
            // A step of 0 would be refused, even where there is nothing to step over.
            col_stride: nrows.max(1),
        }
    }

    pub fn nrows(self) -> usize {
        self.nrows
    }

    pub fn ncols(self) -> usize {
        self.ncols
    }

    pub fn shape(self) -> (usize, usize) {
        (self.nrows, self.ncols)
    }

    /// The entries from (i, j) on; none if that place lies past the end.
    fn tail(self, i: usize, j: usize) -> &'a [T] {
        let first = i * self.row_stride + j * self.col_stride;
        self.data.get(first..).unwrap_or(&[])
    }

    pub fn get(self, i: usize, j: usize) -> &'a T {
        assert!(i < self.nrows && j < self.ncols, "entry past the end");
        &self.data[i * self.row_stride + j * self.col_stride]
    }

    pub fn row(self, i: usize) -> RowRef<'a, T> {
        assert!(i < self.nrows, "row {i} of {}", self.nrows);
        RowRef::new(self.tail(i, 0), self.ncols, self.col_stride)
    }

    pub fn col(self, j: usize) -> ColRef<'a, T> {
        assert!(j < self.ncols, "column {j} of {}", self.ncols);
        ColRef::new(self.tail(0, j), self.nrows, self.row_stride)
    }

    pub fn transpose(self) -> MatRef<'a, T> {
        MatRef {
            data: self.data,
            nrows: self.ncols,
            ncols: self.nrows,
            row_stride: self.col_stride,
            col_stride: self.row_stride,
        }
    }

    pub fn submatrix(self, i: usize, j: usize, nrows: usize, ncols: usize) -> MatRef<'a, T> {
        assert!(i + nrows <= self.nrows, "rows past the end");
        assert!(j + ncols <= self.ncols, "columns past the end");
        MatRef {
            data: self.tail(i, j),
            nrows,
            ncols,
            ..self
        }
    }

    pub fn subrows(self, start: usize, nrows: usize) -> MatRef<'a, T> {
        self.submatrix(start, 0, nrows, self.ncols)
    }

    pub fn subcols(self, start: usize, ncols: usize) -> MatRef<'a, T> {
        self.submatrix(0, start, self.nrows, ncols)
    }

    /// A matrix of its own, where the standard trait would only copy the view.
    pub fn to_owned(self) -> Mat<T>
    where
        T: Clone,
    {
        Mat::from_fn(self.nrows, self.ncols, |i, j| self.get(i, j).clone())
    }
}

impl<T> Reborrow for MatRef<'_, T> {
    type Target<'short>
        = MatRef<'short, T>
    where
        Self: 'short;

    fn rb(&self) -> MatRef<'_, T> {
        *self
    }
}

/// A matrix for writing; its entries stand side by side, column after column.
#[derive(Debug)]
pub struct MatMut<'a, T> {
    data: &'a mut [T],
    nrows: usize,
    ncols: usize,
}

impl<'a, T> MatMut<'a, T> {
    pub fn from_column_major_slice_mut(data: &'a mut [T], nrows: usize, ncols: usize) -> Self {
        assert_eq!(data.len(), nrows * ncols, "entries do not fill the matrix");
        Self { data, nrows, ncols }
    }

    pub fn shape(&self) -> (usize, usize) {
        (self.nrows, self.ncols)
    }

    pub fn col_mut(self, j: usize) -> ColMut<'a, T> {
        assert!(j < self.ncols, "column {j} of {}", self.ncols);
        ColMut::new(&mut self.data[j * self.nrows..(j + 1) * self.nrows])
    }

    /// The columns before `j`, and those from `j` on.
    pub fn split_at_col_mut(self, j: usize) -> (MatMut<'a, T>, MatMut<'a, T>) {
        assert!(j <= self.ncols, "columns past the end");
        let (left, right) = self.data.split_at_mut(j * self.nrows);
        (
            MatMut::from_column_major_slice_mut(left, self.nrows, j),
            MatMut::from_column_major_slice_mut(right, self.nrows, self.ncols - j),
        )
    }
}

impl<T> Reborrow for MatMut<'_, T> {
    type Target<'short>
        = MatRef<'short, T>
    where
        Self: 'short;

    fn rb(&self) -> MatRef<'_, T> {
        MatRef::from_column_major_slice(self.data, self.nrows, self.ncols)
    }
}

impl<T> ReborrowMut for MatMut<'_, T> {
    type Target<'short>
        = MatMut<'short, T>
    where
        Self: 'short;

    fn rb_mut(&mut self) -> MatMut<'_, T> {
        MatMut::from_column_major_slice_mut(self.data, self.nrows, self.ncols)
    }
}

/// Whatever can be read as a matrix.
pub trait AsMatRef {
    type T;

    fn as_mat_ref(&self) -> MatRef<'_, Self::T>;
}

impl<T> AsMatRef for Mat<T> {
    type T = T;

    fn as_mat_ref(&self) -> MatRef<'_, T> {
        self.as_ref()
    }
}

impl<T> AsMatRef for MatRef<'_, T> {
    type T = T;

    fn as_mat_ref(&self) -> MatRef<'_, T> {
        *self
    }
}

impl<M: AsMatRef + ?Sized> AsMatRef for &M {
    type T = M::T;

    fn as_mat_ref(&self) -> MatRef<'_, M::T> {
        (**self).as_mat_ref()
    }
}

/// Whatever can be written as a matrix.
pub trait AsMatMut {
    type T;

    fn as_mat_mut(&mut self) -> MatMut<'_, Self::T>;
}

impl<T> AsMatMut for Mat<T> {
    type T = T;

    fn as_mat_mut(&mut self) -> MatMut<'_, T> {
        self.as_mut()
    }
}

impl<T> AsMatMut for MatMut<'_, T> {
    type T = T;

    fn as_mat_mut(&mut self) -> MatMut<'_, T> {
        self.rb_mut()
    }
}

impl<M: AsMatMut + ?Sized> AsMatMut for &mut M {
    type T = M::T;

    fn as_mat_mut(&mut self) -> MatMut<'_, M::T> {
        (**self).as_mat_mut()
    }
}
