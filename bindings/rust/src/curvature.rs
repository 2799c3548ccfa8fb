//! The curvature of what the nodes of a cell count for, at reference coordinates.

use crate::coefficients::rows;
use crate::refusal::{Refusal, told};
use crate::sys;

/// The buffers that [`get_curvature_coefficients`] is lent. All of them are written; the last four
/// are room to work in.
#[derive(Debug)]
pub struct Curvatures<'a> {
    /// P by N * D * (D + 1) / 2. Column q * N + n becomes the curvature of what node n counts for,
    /// along pair number q: the pairs (g, h) of axes with g <= h, in lexicographic order.
    pub curvatures: &'a mut [f64],
    /// P by D * p. Column a * p + n becomes the share of index n on axis a.
    pub factors: &'a mut [f64],
    /// P by D * p. Column a * p + n becomes the slope of that share.
    pub slopes: &'a mut [f64],
    /// P by D * p. Column a * p + n becomes the second derivative of that share.
    pub bends: &'a mut [f64],
    /// P by 3 * p. It becomes T, T' and T'' at the coordinates of the last axis, in this order.
    pub room: &'a mut [f64],
}

/// The curvature of what each node of a cell counts for, at points: its second derivative along each
/// pair of axes.
///
/// The points are given by reference coordinates, as [`scale_points`](crate::scale_points) leaves
/// them, and are only read. So values, gradients and curvature at the same points need one scaling.
/// The curvature is along the axes of the cell itself. The curvature of a field is the sum over the
/// nodes of this times the field's number there. A coordinate outside the cell is taken.
///
/// - `dimension`: D, 1 to 3.
/// - `order`: p, 1 to 16.
/// - `length`: how long the cell is on each axis, from 2^-20 to 2^30: the length that the points
///   were scaled with.
/// - `node_polynomials`: p by p. Column k has T_k at the nodes.
/// - `coordinates`: P by D, a row a point, and at most 4,096 of them.
///
/// # Errors
///
/// [`Refusal::NoDimension`], [`Refusal::NoOrder`], [`Refusal::NoCount`], [`Refusal::WrongLength`],
/// [`Refusal::NoCell`] and [`Refusal::NotFinite`].
///
/// # Examples
///
/// ```
/// use bbfmm::{Curvatures, Refusal, get_curvature_coefficients, scale_points};
/// # use bbfmm::{evaluate_chebyshev_polynomials, generate_chebyshev_nodes};
///
/// // A gallery of length 4 about 3, with three nodes; and a field, x^2, whose curvature is 2.
/// let (mut nodes, mut node_polynomials) = ([0.0; 3], [0.0; 9]);
/// generate_chebyshev_nodes(3, &mut nodes)?;
/// evaluate_chebyshev_polynomials(3, &nodes, &mut node_polynomials, None)?;
/// let field = nodes.map(|node| (3.0 + 2.0 * node).powi(2));
///
/// let mut place = [4.5];
/// scale_points(1, 4.0, &[3.0], &mut place)?;
/// let [mut curvatures, mut factors, mut slopes, mut bends] = [[0.0; 3]; 4];
/// let mut lent = Curvatures {
///     curvatures: &mut curvatures,
///     factors: &mut factors,
///     slopes: &mut slopes,
///     bends: &mut bends,
///     room: &mut [0.0; 9],
/// };
/// get_curvature_coefficients(1, 3, 4.0, &node_polynomials, &place, &mut lent)?;
/// let found: f64 = lent.curvatures.iter().zip(field).map(|(count, number)| count * number).sum();
/// assert!((found - 2.0).abs() < 1e-13);
///
/// // A length that no cell has.
/// let refused = get_curvature_coefficients(1, 3, 0.0, &node_polynomials, &place, &mut lent);
/// assert_eq!(refused, Err(Refusal::NoCell));
/// # Ok::<(), Refusal>(())
/// ```
pub fn get_curvature_coefficients(
    dimension: usize,
    order: usize,
    length: f64,
    node_polynomials: &[f64],
    coordinates: &[f64],
    lent: &mut Curvatures<'_>,
) -> Result<(), Refusal> {
    told(sys::get_curvature_coefficients(
        dimension,
        order,
        rows(coordinates.len(), dimension),
        length,
        node_polynomials,
        coordinates,
        lent,
    ))
}
