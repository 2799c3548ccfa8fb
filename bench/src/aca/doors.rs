//! Opens a private function of aca.rs, as it is: a child may call what its parent keeps private.

use super::*;

pub fn argmax(row: &Mat<f64>, mask: &[u8]) -> usize {
    argmax_masked(&row.row(0), mask)
}
