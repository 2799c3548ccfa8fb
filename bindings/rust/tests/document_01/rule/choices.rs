//! Masked argmax and rank cutoff.

use super::{bad_length, refusal};

/// Counts only sizes strictly above the best so far, starting from 0.
pub fn argmax(entries: &[f64], counts: impl Fn(usize) -> bool) -> usize {
    let mut best = 0.0;
    let mut place = 0;
    for (at, entry) in entries.iter().enumerate() {
        if counts(at) && entry.abs() > best {
            best = entry.abs();
            place = at;
        }
    }
    place
}

pub fn argmax_masked(entries: &[f64], mask: &[u8]) -> Result<usize, u8> {
    refusal(&[
        (10, mask.iter().any(|byte| *byte > 1)),
        bad_length(mask, &[entries.len()]),
        (3, entries.len() > 1024),
    ])?;
    Ok(argmax(entries, |at| mask[at] == 1))
}

/// The first place whose sum of squares, from the end, is strictly below (total*epsilon)*epsilon,
/// else the length.
pub fn cutoff(values: &[f64], epsilon: f64) -> Result<usize, u8> {
    refusal(&[(3, !(1..=1024).contains(&values.len()))])?;
    let sum = |place: usize| values[place..].iter().rev().fold(0.0, |sum, x| sum + x * x);
    let limit = (sum(0) * epsilon) * epsilon;
    let is_small = |place: &usize| sum(*place) < limit;
    Ok((0..values.len()).find(is_small).unwrap_or(values.len()))
}
