//! Points of a cell as reference coordinates, and what the nodes of a cell count for there.

use crate::refusal::{Refusal, told};
use crate::sys;

/// How many rows a matrix with so many entries and columns has. Where it has no columns, or a row is
/// not whole, the call refuses it, whatever is told of its rows.
pub(crate) fn rows(entries: usize, columns: usize) -> usize {
    entries.checked_div(columns).unwrap_or(0)
}

/// Points of a cell become reference coordinates: on each axis (point - centre) / (length * 0.5), so
/// that the cell goes from -1 to 1.
///
/// They are what [`get_approximation_coefficients`] takes. Scaled once, they serve as often as they
/// are asked about; a second scaling would move them. No point is scaled before all are known to
/// belong to the cell.
///
/// - `dimension`: D, 1 to 3.
/// - `length`: how long the cell is on each axis, from 2^-20 to 2^30.
/// - `centre`: D entries, the middle of the cell.
/// - `points`: P by D, a row a point, and at most 4,096 of them.
///
/// # Errors
///
/// [`Refusal::NoDimension`], [`Refusal::NoCount`], [`Refusal::WrongLength`], [`Refusal::NoCell`],
/// [`Refusal::NotFinite`] and [`Refusal::OutOfCell`].
///
/// # Examples
///
/// ```
/// use bbfmm::{Refusal, scale_points};
///
/// // A cell of length 4 about (1, 10), and the points (2, 9) and (-1, 12).
/// let mut points = [2.0, -1.0, 9.0, 12.0];
/// scale_points(2, 4.0, &[1.0, 10.0], &mut points)?;
/// assert_eq!(points, [0.5, -1.0, -0.5, 1.0]);
///
/// // A point that is out of the cell on one axis: none is scaled.
/// let mut points = [2.0, -1.0, 9.0, 13.0];
/// let refused = scale_points(2, 4.0, &[1.0, 10.0], &mut points);
/// assert_eq!(refused, Err(Refusal::OutOfCell));
/// assert_eq!(points, [2.0, -1.0, 9.0, 13.0]);
/// # Ok::<(), Refusal>(())
/// ```
pub fn scale_points(
    dimension: usize,
    length: f64,
    centre: &[f64],
    points: &mut [f64],
) -> Result<(), Refusal> {
    let rows = rows(points.len(), dimension);
    told(sys::scale_points(dimension, rows, length, centre, points))
}

/// The buffers for gradients, and the cell's length. A slope is along the axes of the cell and not
/// of its reference coordinates, so that it needs the length; values do not.
#[derive(Debug)]
pub struct Gradients<'a> {
    /// How long the cell is on each axis, from 2^-20 to 2^30: the length that the points were scaled
    /// with.
    pub length: f64,
    /// P by D * N. Column g * N + n becomes the slope along axis g of what node n counts for.
    pub gradients: &'a mut [f64],
    /// P by D * p, room to work in. Column a * p + n becomes the slope of the share of index n on
    /// axis a.
    pub slopes: &'a mut [f64],
}

/// What each node of a cell counts for at points; and, if wanted, how that changes along each axis.
///
/// The points are given by reference coordinates, as [`scale_points`] leaves them, and are only
/// read. So values can be asked for first, and gradients later, at the same coordinates: the values
/// are the same, bit for bit. A coordinate outside the cell is taken: the polynomials go on there,
/// and grow.
///
/// - `dimension`: D, 1 to 3.
/// - `order`: p, 1 to 16.
/// - `node_polynomials`: p by p. Column k has T_k at the nodes.
/// - `coordinates`: P by D, a row a point, and at most 4,096 of them.
/// - `values`: P by N. Column n becomes what node n counts for.
/// - `factors`: P by D * p, room to work in. Column a * p + n becomes the share of index n on axis
///   a.
/// - `gradients`: the buffers for gradients and the cell's length, if they are wanted.
///
/// # Errors
///
/// [`Refusal::NoDimension`], [`Refusal::NoOrder`], [`Refusal::NoCount`], [`Refusal::WrongLength`],
/// [`Refusal::NoCell`] with gradients only, and [`Refusal::NotFinite`].
///
/// # Examples
///
/// ```
/// use bbfmm::{Gradients, Refusal, get_approximation_coefficients, scale_points};
///
/// // A cell of length 4 about 1, with nodes at -0.5 and 0.5 of it, and the point 2.
/// let node_polynomials = [1.0, 1.0, -0.5, 0.5];
/// let mut place = [2.0];
/// scale_points(1, 4.0, &[1.0], &mut place)?;
/// assert_eq!(place, [0.5]);
///
/// // The map draws values.
/// let (mut values, mut factors) = ([0.0; 2], [0.0; 2]);
/// get_approximation_coefficients(
///     1, 2, &node_polynomials, &place, &mut values, &mut factors, None,
/// )?;
/// assert_eq!(values, [0.25, 0.75]);
///
/// // Then gradients, at the same coordinates.
/// let (mut slope_of_values, mut slopes) = ([0.0; 2], [0.0; 2]);
/// let wanted = Gradients {
///     length: 4.0,
///     gradients: &mut slope_of_values,
///     slopes: &mut slopes,
/// };
/// get_approximation_coefficients(
///     1, 2, &node_polynomials, &place, &mut values, &mut factors, Some(wanted),
/// )?;
/// assert_eq!(values, [0.25, 0.75]);
/// assert_eq!(slope_of_values, [-0.25, 0.25]);
///
/// // Outside the cell the polynomials go on. What is not finite is refused.
/// let mut ask = |x| {
///     get_approximation_coefficients(
///         1, 2, &node_polynomials, &[x], &mut values, &mut factors, None,
///     )
/// };
/// assert_eq!(ask(f64::NAN), Err(Refusal::NotFinite));
/// assert_eq!(ask(3.0), Ok(()));
/// assert_eq!(values, [-1.0, 2.0]);
/// # Ok::<(), Refusal>(())
/// ```
pub fn get_approximation_coefficients(
    dimension: usize,
    order: usize,
    node_polynomials: &[f64],
    coordinates: &[f64],
    values: &mut [f64],
    factors: &mut [f64],
    gradients: Option<Gradients<'_>>,
) -> Result<(), Refusal> {
    let with_gradients = gradients.is_some();
    // Without gradients the length is not looked at, and one that is refused with them shows it.
    let wanted = gradients.unwrap_or(Gradients {
        length: 0.0,
        gradients: &mut [],
        slopes: &mut [],
    });
    told(sys::get_approximation_coefficients(
        dimension,
        order,
        rows(coordinates.len(), dimension),
        with_gradients,
        node_polynomials,
        coordinates,
        values,
        factors,
        wanted,
    ))
}
