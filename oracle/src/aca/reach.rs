//! Opens two functions of aca.rs, one of them private: a child may call what its parent keeps private.

// The parent silences warnings for the text; our own code must not hide behind that.
#![warn(clippy::all, dead_code, unused_imports)]

use super::{argmax_masked, calculate_singular_values_cutoff};
use faer::Mat;

/// Asks the text for the place of the largest entry that the mask lets count.
pub fn argmax(entries: &[f64], mask: &[u8]) -> usize {
    let row = Mat::from_fn(1, entries.len(), |_, column| entries[column]);
    argmax_masked(&row.row(0), mask)
}

/// Asks the text where singular values are cut off; it takes none of an empty list.
pub fn cutoff(values: &[f64], epsilon: f64) -> usize {
    calculate_singular_values_cutoff(values.to_vec(), &epsilon)
}
