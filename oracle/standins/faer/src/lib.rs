//! Stand-in for the matrix crate: real data and real meaning, for the names the Rust text uses.
//!
//! Three things are decisions of this stand-in and not of the real crate. A product adds its terms
//! in rising index, starting from +0.0, and never fuses a multiplication with an addition; a factor
//! is applied to the finished sum. The sum over a matrix goes down the columns, one after another,
//! from +0.0. The decompositions (QR, SVD) only compile.

#![forbid(unsafe_code)]

pub mod linalg;
pub mod mat;
mod vector;

pub use mat::{Mat, MatMut, MatRef};
pub use vector::{ColMut, ColRef, Row, RowMut, RowRef};

/// Where the real crate keeps its row type; there it is generic over its owner, here it owns.
pub mod row {
    pub mod generic {
        pub use crate::vector::Row;
    }
}

/// The names brought in for `rb` and `rb_mut`.
pub mod prelude {
    pub use crate::{Reborrow, ReborrowMut};
}

/// Whether a product replaces what the target holds or is added to it.
#[derive(Clone, Copy, Debug, PartialEq, Eq)]
pub enum Accum {
    Replace,
    Add,
}

/// How many threads to use; there is only one here.
#[derive(Clone, Copy, Debug, PartialEq, Eq)]
pub enum Par {
    Seq,
}

/// Lends a view for reading, for a shorter time.
pub trait Reborrow {
    type Target<'short>
    where
        Self: 'short;

    fn rb(&self) -> Self::Target<'_>;
}

/// Lends a view for writing, for a shorter time.
pub trait ReborrowMut {
    type Target<'short>
    where
        Self: 'short;

    fn rb_mut(&mut self) -> Self::Target<'_>;
}

/// Walks columns side by side; each step gives nested pairs, which `unzip!` takes apart.
#[macro_export]
macro_rules! zip {
    ($last:expr $(,)?) => {
        ::core::iter::IntoIterator::into_iter($last)
    };
    ($first:expr, $($rest:expr),+ $(,)?) => {
        $crate::side_by_side($first, $crate::zip!($($rest),+))
    };
}

/// The pattern for one step of `zip!`.
#[macro_export]
macro_rules! unzip {
    ($last:pat $(,)?) => {
        $last
    };
    ($first:pat, $($rest:pat),+ $(,)?) => {
        ($first, $crate::unzip!($($rest),+))
    };
}

/// What `zip!` calls: columns of unlike length are a fault, as in the real crate.
pub fn side_by_side<A, B>(first: A, rest: B) -> std::iter::Zip<A::IntoIter, B>
where
    A: IntoIterator,
    A::IntoIter: ExactSizeIterator,
    B: ExactSizeIterator,
{
    let first = first.into_iter();
    assert_eq!(first.len(), rest.len(), "columns of unlike length");
    first.zip(rest)
}
