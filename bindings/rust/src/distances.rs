//! The square root, and the distances between the nodes of two blocks.

use crate::refusal::{Refusal, told};
use crate::sys;

/// The square root of any float, rounded once, to the nearest and in a tie to the even float.
///
/// -0.0, +0.0 and +infinity give themselves. A NaN and whatever is below 0, -infinity too, give
/// NaN.
///
/// # Examples
///
/// ```
/// use bbfmm::square_root;
///
/// assert_eq!(square_root(2.25), 1.5);
/// assert_eq!(square_root(2.0), std::f64::consts::SQRT_2);
/// assert_eq!(square_root(-0.0).to_bits(), (-0.0_f64).to_bits());
/// assert!(square_root(-1.0).is_nan());
/// ```
#[must_use]
pub fn square_root(x: f64) -> f64 {
    sys::square_root(x)
}

/// Fills a block with the distances from the nodes of the block at a reference vector, the sources,
/// to the nodes of the block about the origin, the targets. The reference number is below 2, 7, 16
/// for dimension 1, 2, 3, and N is at most 1,024.
///
/// - `nodes`: p entries, the nodes along one axis of a block from -1 to 1.
/// - `sources`: N by D. They become what [`generate_chebyshev_source_points`] gives.
/// - `targets`: N by D. They become what [`generate_chebyshev_target_points`] gives.
/// - `block`: N by N. The entry of row i and column j becomes the root of the sum of the squares of
///   source i less target j, added in axis order; in one dimension too.
///
/// [`generate_chebyshev_source_points`]: crate::generate_chebyshev_source_points
/// [`generate_chebyshev_target_points`]: crate::generate_chebyshev_target_points
///
/// # Errors
///
/// [`Refusal::NoDimension`], [`Refusal::NoOrder`], [`Refusal::NoCount`] where N is above 1,024,
/// [`Refusal::NoCase`], [`Refusal::WrongLength`] and [`Refusal::NoCell`].
///
/// # Examples
///
/// ```
/// use bbfmm::{Refusal, sample_distances};
///
/// // The reference vector with number 1 is (3).
/// let nodes = [-0.5, 0.5];
/// let (mut sources, mut targets, mut block) = ([0.0; 2], [0.0; 2], [0.0; 4]);
/// sample_distances(1, 2, 4.0, 1, &nodes, &mut sources, &mut targets, &mut block)?;
/// assert_eq!(sources, [11.0, 13.0]);
/// assert_eq!(targets, [-1.0, 1.0]);
/// assert_eq!(block, [12.0, 14.0, 10.0, 12.0]);
/// assert_eq!(
///     sample_distances(1, 2, 4.0, 2, &nodes, &mut sources, &mut targets, &mut block),
///     Err(Refusal::NoCase)
/// );
///
/// // In two dimensions number 6 is (3, 3). Source 1 is a step of 1 further on the second axis.
/// let nodes = [-1.0, 1.0];
/// let (mut sources, mut targets, mut block) = ([0.0; 8], [0.0; 8], [0.0; 16]);
/// sample_distances(2, 2, 1.0, 6, &nodes, &mut sources, &mut targets, &mut block)?;
/// assert_eq!([sources[1], sources[4 + 1]], [2.5, 3.5]);
/// assert_eq!([targets[0], targets[4]], [-0.5, -0.5]);
/// assert_eq!(block[1], 5.0);
/// # Ok::<(), Refusal>(())
/// ```
#[expect(clippy::too_many_arguments, reason = "they are those of the call")]
pub fn sample_distances(
    dimension: usize,
    order: usize,
    length: f64,
    reference: usize,
    nodes: &[f64],
    sources: &mut [f64],
    targets: &mut [f64],
    block: &mut [f64],
) -> Result<(), Refusal> {
    told(sys::sample_distances(
        dimension, order, length, reference, nodes, sources, targets, block,
    ))
}
