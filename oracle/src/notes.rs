//! Notes what the cross approximation does not return: the copy of its text that notes calls these.

use faer::Mat;
use std::cell::RefCell;

/// Why a run ended; the numbers are those of the line. The text never ends with the last, which only
/// restart mode has.
#[derive(Clone, Copy, Debug, Default, PartialEq)]
pub enum Stop {
    Reached = 1,
    NearZero = 2,
    #[default]
    UsedUp = 3,
    AllTried = 4,
}

/// What a run has shown; the row and the column are empty until there is one.
#[derive(Clone, Debug, Default)]
pub struct Notes {
    pub estimate: f64,
    /// The smallest size among the accepted pivots that are numbers, or +0.0. The text does not tell it.
    pub smallest: f64,
    pub stop: Stop,
    pub row: Vec<f64>,
    pub column: Vec<f64>,
    /// Whether the cross term with the only earlier term was -0.0.
    pub negative_zero: bool,
}

thread_local! {
    static NOTES: RefCell<Notes> = RefCell::default();
}

/// A residual row, not scaled, has a pivot so small that the run ends.
pub(crate) fn near_zero(row: &Mat<f64>) {
    NOTES.with_borrow_mut(|notes| {
        notes.stop = Stop::NearZero;
        notes.row = row.row(0).iter().copied().collect();
    });
}

/// A term is stored, which makes `rank` terms.
pub(crate) fn accepted(
    rank: usize,
    estimate: f64,
    cross_term: f64,
    row: &Mat<f64>,
    column: &Mat<f64>,
) {
    NOTES.with_borrow_mut(|notes| {
        notes.estimate = estimate;
        notes.row = row.row(0).iter().copied().collect();
        notes.column = column.col(0).iter().copied().collect();
        notes.negative_zero |= rank == 2 && cross_term.to_bits() == (-0.0f64).to_bits();
    });
}

/// The last term is so small that the run ends.
pub(crate) fn reached() {
    NOTES.with_borrow_mut(|notes| notes.stop = Stop::Reached);
}

/// The notes since they were last taken.
pub fn take() -> Notes {
    NOTES.take()
}
