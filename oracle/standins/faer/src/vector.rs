//! Rows and columns: views into a matrix, and the row that owns its entries.

use crate::linalg::solvers::DiagRef;
use crate::{Reborrow, ReborrowMut};
use std::iter::{StepBy, Take};
use std::ops::Index;
use std::{slice, vec};

/// The entries of a view, in rising index.
pub type Entries<'a, T> = Take<StepBy<slice::Iter<'a, T>>>;

/// Defines a view for reading: `length` entries of `data`, `stride` apart, from its start.
macro_rules! view {
    ($(#[$about:meta])* $name:ident, turned into $other:ident) => {
        $(#[$about])*
        #[derive(Debug)]
        pub struct $name<'a, T> {
            data: &'a [T],
            length: usize,
            stride: usize,
        }

        // Written out, as a derive would ask that the entries can be copied too.
        impl<T> Clone for $name<'_, T> {
            fn clone(&self) -> Self {
                *self
            }
        }

        impl<T> Copy for $name<'_, T> {}

        impl<'a, T> $name<'a, T> {
            pub(crate) fn new(data: &'a [T], length: usize, stride: usize) -> Self {
                assert!(length == 0 || (length - 1) * stride < data.len());
                Self { data, length, stride }
            }

            pub fn iter(self) -> Entries<'a, T> {
                self.data.iter().step_by(self.stride).take(self.length)
            }

            pub fn transpose(self) -> $other<'a, T> {
                $other::new(self.data, self.length, self.stride)
            }
        }

        impl<T> Index<usize> for $name<'_, T> {
            type Output = T;

            fn index(&self, place: usize) -> &T {
                assert!(place < self.length, "entry {place} of {}", self.length);
                &self.data[place * self.stride]
            }
        }

        impl<'a, T> IntoIterator for $name<'a, T> {
            type Item = &'a T;
            type IntoIter = Entries<'a, T>;

            fn into_iter(self) -> Entries<'a, T> {
                self.iter()
            }
        }
    };
}

view!(
    /// A row of a matrix, for reading.
    RowRef, turned into ColRef
);
view!(
    /// A column of a matrix, for reading.
    ColRef, turned into RowRef
);

impl<T> RowRef<'_, T> {
    pub fn ncols(self) -> usize {
        self.length
    }
}

impl<'a, T> ColRef<'a, T> {
    pub fn from_slice(data: &'a [T]) -> Self {
        Self::new(data, data.len(), 1)
    }

    pub fn nrows(self) -> usize {
        self.length
    }

    pub fn subrows(self, start: usize, length: usize) -> Self {
        assert!(start + length <= self.length, "rows past the end");
        let first = (start * self.stride).min(self.data.len());
        Self::new(&self.data[first..], length, self.stride)
    }

    pub fn as_diagonal(self) -> DiagRef<'a, T> {
        DiagRef::new(self)
    }
}

/// Whatever can be read as a column.
pub trait AsColRef {
    type T;

    fn as_col_ref(&self) -> ColRef<'_, Self::T>;
}

impl<T> AsColRef for ColRef<'_, T> {
    type T = T;

    fn as_col_ref(&self) -> ColRef<'_, T> {
        *self
    }
}

impl<C: AsColRef + ?Sized> AsColRef for &C {
    type T = C::T;

    fn as_col_ref(&self) -> ColRef<'_, C::T> {
        (**self).as_col_ref()
    }
}

/// A column of a matrix, for writing; its entries stand side by side.
#[derive(Debug)]
pub struct ColMut<'a, T> {
    data: &'a mut [T],
}

impl<'a, T> ColMut<'a, T> {
    pub(crate) fn new(data: &'a mut [T]) -> Self {
        Self { data }
    }

    pub fn iter_mut(self) -> slice::IterMut<'a, T> {
        self.data.iter_mut()
    }

    pub fn fill(&mut self, value: T)
    where
        T: Clone,
    {
        self.data.fill(value);
    }

    pub fn copy_from<C: AsColRef<T = T>>(&mut self, source: C)
    where
        T: Clone,
    {
        let source = source.as_col_ref();
        assert_eq!(source.nrows(), self.data.len(), "columns of unlike length");
        for (to, from) in self.data.iter_mut().zip(source) {
            *to = from.clone();
        }
    }
}

impl<T> Reborrow for ColMut<'_, T> {
    type Target<'short>
        = ColRef<'short, T>
    where
        Self: 'short;

    fn rb(&self) -> ColRef<'_, T> {
        ColRef::from_slice(self.data)
    }
}

impl<T> ReborrowMut for ColMut<'_, T> {
    type Target<'short>
        = ColMut<'short, T>
    where
        Self: 'short;

    fn rb_mut(&mut self) -> ColMut<'_, T> {
        ColMut::new(self.data)
    }
}

impl<'a, T> IntoIterator for ColMut<'a, T> {
    type Item = &'a mut T;
    type IntoIter = slice::IterMut<'a, T>;

    fn into_iter(self) -> slice::IterMut<'a, T> {
        self.iter_mut()
    }
}

/// A row of a matrix, for writing; it holds each entry on its own, as they stand apart.
#[derive(Debug)]
pub struct RowMut<'a, T> {
    entries: Vec<&'a mut T>,
}

impl<'a, T> RowMut<'a, T> {
    pub(crate) fn new(entries: Vec<&'a mut T>) -> Self {
        Self { entries }
    }

    pub fn iter_mut(self) -> vec::IntoIter<&'a mut T> {
        self.entries.into_iter()
    }

    pub fn cloned(&self) -> Row<T>
    where
        T: Clone,
    {
        self.entries.iter().map(|entry| (**entry).clone()).collect()
    }
}

/// A row that owns its entries.
#[derive(Clone, Debug, PartialEq)]
pub struct Row<T> {
    entries: Vec<T>,
}

impl<T> Row<T> {
    pub fn iter(&self) -> slice::Iter<'_, T> {
        self.entries.iter()
    }
}

impl<T> FromIterator<T> for Row<T> {
    fn from_iter<I: IntoIterator<Item = T>>(items: I) -> Self {
        Self {
            entries: items.into_iter().collect(),
        }
    }
}

impl<T: PartialEq> PartialEq<RowRef<'_, T>> for Row<T> {
    fn eq(&self, other: &RowRef<'_, T>) -> bool {
        self.iter().eq(other.iter())
    }
}
