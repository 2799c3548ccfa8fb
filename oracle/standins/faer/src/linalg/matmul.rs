//! The matrix product, with a fixed order of its additions.

use crate::mat::{AsMatMut, AsMatRef};
use crate::{Accum, ColRef, Mat, MatRef, Par, RowRef};

/// Adds the terms in rising index, starting from +0.0, and never fuses.
///
/// This is the decision of the stand-in: the real crate splits the sum over several
/// registers and fuses, so its last bits may differ from ours.
pub(crate) fn dot(row: RowRef<'_, f64>, column: ColRef<'_, f64>) -> f64 {
    assert_eq!(row.ncols(), column.nrows(), "sizes do not fit");
    let mut total = 0.0;
    for (a, b) in row.iter().zip(column) {
        total += a * b;
    }
    total
}

pub(crate) fn product(left: MatRef<'_, f64>, right: MatRef<'_, f64>) -> Mat<f64> {
    assert_eq!(left.ncols(), right.nrows(), "sizes do not fit");
    Mat::from_fn(left.nrows(), right.ncols(), |i, j| {
        dot(left.row(i), right.col(j))
    })
}

/// Sets `target` to `factor * left * right`, or adds that to it.
///
/// The factor multiplies the finished sum: again a decision of the stand-in.
pub fn matmul(
    mut target: impl AsMatMut<T = f64>,
    accum: Accum,
    left: impl AsMatRef<T = f64>,
    right: impl AsMatRef<T = f64>,
    factor: f64,
    _par: Par,
) {
    let product = product(left.as_mat_ref(), right.as_mat_ref());
    let target = target.as_mat_mut();
    assert_eq!(target.shape(), product.shape(), "sizes do not fit");

    let mut rest = target;
    for j in 0..product.ncols() {
        let (column, after) = rest.split_at_col_mut(1);
        for (entry, sum) in column.col_mut(0).iter_mut().zip(product.col(j)) {
            *entry = match accum {
                Accum::Replace => factor * sum,
                Accum::Add => *entry + factor * sum,
            };
        }
        rest = after;
    }
}
