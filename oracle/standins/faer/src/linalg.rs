//! Arithmetic on matrices: products, sums and differences, and the names of the decompositions.

pub mod matmul;
pub mod solvers;

use crate::mat::AsMatRef;
use crate::vector::AsColRef;
use crate::{Mat, MatRef, RowRef};
use matmul::{dot, product};
use solvers::DiagRef;
use std::ops::{Mul, MulAssign, SubAssign};

/// Defines `left * matrix` for each way the text writes the left factor.
macro_rules! times_matrix {
    ($($left:ty),+) => {$(
        impl<R: AsMatRef<T = f64>> Mul<R> for $left {
            type Output = Mat<f64>;

            fn mul(self, right: R) -> Mat<f64> {
                product(self.as_mat_ref(), right.as_mat_ref())
            }
        }
    )+};
}

times_matrix!(Mat<f64>, &Mat<f64>, MatRef<'_, f64>, &MatRef<'_, f64>);

impl<R: AsColRef<T = f64>> Mul<R> for RowRef<'_, f64> {
    type Output = f64;

    fn mul(self, right: R) -> f64 {
        dot(self, right.as_col_ref())
    }
}

/// Scales the rows.
impl<R: AsMatRef<T = f64>> Mul<R> for DiagRef<'_, f64> {
    type Output = Mat<f64>;

    fn mul(self, right: R) -> Mat<f64> {
        let (factors, right) = (self.column_vector(), right.as_mat_ref());
        assert_eq!(factors.nrows(), right.nrows(), "sizes do not fit");
        Mat::from_fn(right.nrows(), right.ncols(), |i, j| {
            factors[i] * right.get(i, j)
        })
    }
}

/// Scales the columns.
impl Mul<DiagRef<'_, f64>> for MatRef<'_, f64> {
    type Output = Mat<f64>;

    fn mul(self, right: DiagRef<'_, f64>) -> Mat<f64> {
        let factors = right.column_vector();
        assert_eq!(self.ncols(), factors.nrows(), "sizes do not fit");
        Mat::from_fn(self.nrows(), self.ncols(), |i, j| {
            self.get(i, j) * factors[j]
        })
    }
}

impl<R: AsMatRef<T = f64>> SubAssign<R> for Mat<f64> {
    fn sub_assign(&mut self, right: R) {
        let right = right.as_mat_ref();
        assert_eq!(self.shape(), right.shape(), "sizes do not fit");
        for j in 0..right.ncols() {
            for (entry, other) in self.col_mut(j).iter_mut().zip(right.col(j)) {
                *entry -= other;
            }
        }
    }
}

impl MulAssign<f64> for Mat<f64> {
    fn mul_assign(&mut self, factor: f64) {
        for column in self.col_iter_mut() {
            for entry in column {
                *entry *= factor;
            }
        }
    }
}

impl MatRef<'_, f64> {
    /// Adds down the columns, one after another, from +0.0: a decision of this stand-in.
    pub fn sum(self) -> f64 {
        let mut total = 0.0;
        for j in 0..self.ncols() {
            for entry in self.col(j) {
                total += entry;
            }
        }
        total
    }
}
