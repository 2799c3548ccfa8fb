//! Target and source points.

use crate::refusal::{Refusal, told};
use crate::sys;

/// Where the nodes of a block of this length lie, about the origin.
///
/// - `nodes`: p entries, the nodes along one axis of a block from -1 to 1.
/// - `points`: N by D. Row n becomes the place of node n.
///
/// # Errors
///
/// [`Refusal::NoDimension`], [`Refusal::NoOrder`], [`Refusal::WrongLength`] and
/// [`Refusal::NoCell`].
///
/// # Examples
///
/// ```
/// use bbfmm::{Refusal, generate_chebyshev_target_points};
///
/// let nodes = [-0.5, 0.5];
/// let mut points = [0.0; 8];
/// generate_chebyshev_target_points(2, 2, 4.0, &nodes, &mut points)?;
/// assert_eq!(points[..4], [-1.0, -1.0, 1.0, 1.0]);
/// assert_eq!(points[4..], [-1.0, 1.0, -1.0, 1.0]);
/// assert_eq!(
///     generate_chebyshev_target_points(2, 2, 0.0, &nodes, &mut points),
///     Err(Refusal::NoCell)
/// );
/// # Ok::<(), Refusal>(())
/// ```
pub fn generate_chebyshev_target_points(
    dimension: usize,
    order: usize,
    length: f64,
    nodes: &[f64],
    points: &mut [f64],
) -> Result<(), Refusal> {
    told(sys::generate_chebyshev_target_points(
        dimension, order, length, nodes, points,
    ))
}

/// Where the nodes of the block lie that is at the reference vector with this number. It is below
/// 2, 7, 16 for dimension 1, 2, 3.
///
/// - `nodes`: p entries, the nodes along one axis of a block from -1 to 1.
/// - `points`: N by D. Row n becomes the place of node n.
///
/// # Errors
///
/// [`Refusal::NoDimension`], [`Refusal::NoOrder`], [`Refusal::NoCase`], [`Refusal::WrongLength`]
/// and [`Refusal::NoCell`].
///
/// # Examples
///
/// ```
/// use bbfmm::{Refusal, generate_chebyshev_source_points};
///
/// // The reference vector with number 1 is (3).
/// let nodes = [-0.5, 0.5];
/// let mut points = [0.0; 2];
/// generate_chebyshev_source_points(1, 2, 4.0, 1, &nodes, &mut points)?;
/// assert_eq!(points, [11.0, 13.0]);
/// assert_eq!(
///     generate_chebyshev_source_points(1, 2, 4.0, 2, &nodes, &mut points),
///     Err(Refusal::NoCase)
/// );
/// # Ok::<(), Refusal>(())
/// ```
pub fn generate_chebyshev_source_points(
    dimension: usize,
    order: usize,
    length: f64,
    reference: usize,
    nodes: &[f64],
    points: &mut [f64],
) -> Result<(), Refusal> {
    told(sys::generate_chebyshev_source_points(
        dimension, order, length, reference, nodes, points,
    ))
}
