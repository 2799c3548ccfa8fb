//! One block that is too large to store: its answer is only printed.

use crate::cross::{self, Block};
use crate::cross_exact;
use crate::floats::checksum;

const SIDE: usize = 1024;

/// The steps between these are -2, 4, -8 and 16: with the 1, they are the pivots.
const LEVELS: [f64; 5] = [1.0, -1.0, 3.0, -5.0, 11.0];

/// A block of rank 5 in which nothing rounds: its entry is the level of the lower of two remainders.
fn block() -> Block {
    let levels = LEVELS.len();
    Block::from_fn((SIDE, SIDE), 1.0 / 1_048_576.0, |row, column| {
        LEVELS[(row % levels).min(column % levels)]
    })
}

/// The line that says what the text answers.
pub fn line() -> Result<String, String> {
    let block = block();
    let cross = cross::answer(&block)?;
    cross_exact::check(&block, &cross);
    let factors = &cross.factors;
    Ok(format!(
        "large: cross {SIDE} {SIDE}: rank {} stop {} rows {:?} columns {:?} \
         estimate {} U # {} V # {}",
        factors.rank,
        cross.notes.stop as u8,
        factors.rows,
        factors.columns,
        cross.notes.estimate,
        checksum(&factors.u),
        checksum(&factors.v)
    ))
}
