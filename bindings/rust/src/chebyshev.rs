//! Chebyshev nodes, polynomials, their derivatives and second derivatives.

use crate::refusal::{Refusal, told};
use crate::sys;

/// The Chebyshev nodes of an order, the roots of T_p.
///
/// - `nodes`: p entries. They become the nodes, rising.
///
/// # Errors
///
/// [`Refusal::NoOrder`] and [`Refusal::WrongLength`].
///
/// # Examples
///
/// ```
/// use bbfmm::{Refusal, generate_chebyshev_nodes};
///
/// let mut nodes = [0.0; 2];
/// generate_chebyshev_nodes(2, &mut nodes)?;
/// assert!((nodes[0] + 0.5_f64.sqrt()).abs() < 1e-15);
/// assert!((nodes[1] - 0.5_f64.sqrt()).abs() < 1e-15);
/// assert_eq!(generate_chebyshev_nodes(17, &mut nodes), Err(Refusal::NoOrder));
/// # Ok::<(), Refusal>(())
/// ```
pub fn generate_chebyshev_nodes(order: usize, nodes: &mut [f64]) -> Result<(), Refusal> {
    told(sys::generate_chebyshev_nodes(order, nodes))
}

/// The Chebyshev nodes of an order in a set. Set 0 is what [`generate_chebyshev_nodes`] gives. Set 1
/// is mirror-exact: the upper half of those, their exact negations below, and +0.0 in the middle of
/// an odd order. With points made of it a turned block sees exactly the distances of the stored one
/// along each axis.
///
/// - `nodes`: p entries. They become the nodes, rising.
///
/// # Errors
///
/// [`Refusal::NoOrder`], [`Refusal::WrongLength`] and [`Refusal::NoSet`].
///
/// # Examples
///
/// ```
/// use bbfmm::{Refusal, generate_node_set};
///
/// let mut nodes = [0.0; 3];
/// generate_node_set(3, 1, &mut nodes)?;
/// assert_eq!(nodes[0], -nodes[2]);
/// assert_eq!(nodes[1].to_bits(), 0.0_f64.to_bits());
/// generate_node_set(3, 0, &mut nodes)?;
/// assert!(nodes[1] > 0.0);
/// assert_eq!(generate_node_set(3, 2, &mut nodes), Err(Refusal::NoSet));
/// # Ok::<(), Refusal>(())
/// ```
pub fn generate_node_set(order: usize, set: usize, nodes: &mut [f64]) -> Result<(), Refusal> {
    told(sys::generate_node_set(order, set, nodes))
}

/// The Chebyshev polynomials below the order at points, at most 4,096; and, if wanted, their
/// derivatives.
///
/// - `points`: P entries, any floats.
/// - `tn`: P by p. Column j becomes T_j at the points.
/// - `dtn`: P by p, if there is one. Column j becomes the derivative of T_j at the points.
///
/// # Errors
///
/// [`Refusal::NoOrder`], [`Refusal::NoCount`] and [`Refusal::WrongLength`].
///
/// # Examples
///
/// ```
/// use bbfmm::{Refusal, evaluate_chebyshev_polynomials};
///
/// let mut tn = [0.0; 4];
/// let mut dtn = [0.0; 4];
/// evaluate_chebyshev_polynomials(4, &[0.5], &mut tn, Some(&mut dtn))?;
/// assert_eq!(tn, [1.0, 0.5, -0.5, -1.0]);
/// assert_eq!(dtn, [0.0, 1.0, 2.0, 0.0]);
/// assert_eq!(
///     evaluate_chebyshev_polynomials(3, &[0.5], &mut tn, None),
///     Err(Refusal::WrongLength)
/// );
/// # Ok::<(), Refusal>(())
/// ```
pub fn evaluate_chebyshev_polynomials(
    order: usize,
    points: &[f64],
    tn: &mut [f64],
    dtn: Option<&mut [f64]>,
) -> Result<(), Refusal> {
    let with_derivatives = dtn.is_some();
    let dtn = dtn.unwrap_or_default();
    told(sys::evaluate_chebyshev_polynomials(
        order,
        points.len(),
        points,
        with_derivatives,
        tn,
        dtn,
    ))
}

/// The Chebyshev polynomials below the order at points, at most 4,096; their derivatives, and their
/// second derivatives.
///
/// - `points`: P entries, any floats.
/// - `tn`, `dtn`: P by p each. They become what [`evaluate_chebyshev_polynomials`] leaves there with
///   derivatives.
/// - `ddtn`: P by p. Column j becomes the second derivative of T_j at the points.
///
/// # Errors
///
/// [`Refusal::NoOrder`], [`Refusal::NoCount`] and [`Refusal::WrongLength`].
///
/// # Examples
///
/// ```
/// use bbfmm::{Refusal, evaluate_second_derivatives};
///
/// // T_2 = 2x^2 - 1 has 4 everywhere, and T_3 = 4x^3 - 3x has 24x.
/// let [mut tn, mut dtn, mut ddtn] = [[0.0; 4]; 3];
/// evaluate_second_derivatives(4, &[0.5], &mut tn, &mut dtn, &mut ddtn)?;
/// assert_eq!(tn, [1.0, 0.5, -0.5, -1.0]);
/// assert_eq!(dtn, [0.0, 1.0, 2.0, 0.0]);
/// assert_eq!(ddtn, [0.0, 0.0, 4.0, 12.0]);
/// assert_eq!(
///     evaluate_second_derivatives(17, &[0.5], &mut tn, &mut dtn, &mut ddtn),
///     Err(Refusal::NoOrder)
/// );
/// # Ok::<(), Refusal>(())
/// ```
pub fn evaluate_second_derivatives(
    order: usize,
    points: &[f64],
    tn: &mut [f64],
    dtn: &mut [f64],
    ddtn: &mut [f64],
) -> Result<(), Refusal> {
    told(sys::evaluate_second_derivatives(
        order,
        points.len(),
        points,
        tn,
        dtn,
        ddtn,
    ))
}
