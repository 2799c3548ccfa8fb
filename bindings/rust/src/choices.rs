//! Masked argmax and rank cutoff.

use crate::refusal::{Refusal, told};
use crate::sys;

/// The first place of the largest size among the entries whose mask byte is 1, or 0 where none has
/// a size above 0.
///
/// - `entries`: at most 1,024. A NaN is above nothing.
/// - `mask`: as many bytes, each 0 or 1.
///
/// # Errors
///
/// [`Refusal::NoCount`], [`Refusal::WrongLength`] and [`Refusal::NoMask`].
///
/// # Examples
///
/// ```
/// use bbfmm::{Refusal, argmax_masked};
///
/// assert_eq!(argmax_masked(&[1.0, -3.0, 3.0], &[1, 1, 1])?, 1);
/// assert_eq!(argmax_masked(&[1.0, -3.0, 3.0], &[1, 0, 1])?, 2);
/// assert_eq!(argmax_masked(&[1.0, -3.0, 3.0], &[1, 0, 2]), Err(Refusal::NoMask));
/// # Ok::<(), Refusal>(())
/// ```
pub fn argmax_masked(entries: &[f64], mask: &[u8]) -> Result<usize, Refusal> {
    let mut place = [0];
    told(sys::argmax_masked(entries, mask, &mut place))?;
    Ok(place[0])
}

/// The first place from which on the squares of the singular values, summed from the end, come to
/// less than (total*epsilon)*epsilon, total being the sum of all; or how many there are.
///
/// - `values`: 1 to 1,024 entries.
///
/// # Errors
///
/// [`Refusal::NoCount`].
///
/// # Examples
///
/// ```
/// use bbfmm::{Refusal, calculate_singular_values_cutoff};
///
/// assert_eq!(calculate_singular_values_cutoff(&[4.0, 3.0], 0.5)?, 2);
/// assert_eq!(calculate_singular_values_cutoff(&[4.0, 3.0], 0.75)?, 1);
/// assert_eq!(calculate_singular_values_cutoff(&[], 0.5), Err(Refusal::NoCount));
/// # Ok::<(), Refusal>(())
/// ```
pub fn calculate_singular_values_cutoff(values: &[f64], epsilon: f64) -> Result<usize, Refusal> {
    let mut place = [0];
    told(sys::calculate_singular_values_cutoff(
        values, epsilon, &mut place,
    ))?;
    Ok(place[0])
}
