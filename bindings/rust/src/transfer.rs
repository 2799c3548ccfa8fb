//! The operators between a block and its children, and the tensor transfer.

use crate::refusal::{Refusal, told};
use crate::sys;

/// The operators from a child's nodes to its parent's, on one axis.
///
/// - `nodes`: p entries.
/// - `node_polynomials`: p by p. Column k has T_k at the nodes.
/// - `operators`: p by 2p. The first p columns become the operator of the lower child, the others
///   that of the upper.
///
/// # Errors
///
/// [`Refusal::NoOrder`] and [`Refusal::WrongLength`].
///
/// # Examples
///
/// ```
/// use bbfmm::{Refusal, get_m2m_transfer_operators};
///
/// // Two nodes at -0.5 and 0.5, where T_0 is 1 and T_1 is the node. The children's nodes are
/// // -0.75, -0.25, 0.25 and 0.75.
/// let nodes = [-0.5, 0.5];
/// let node_polynomials = [1.0, 1.0, -0.5, 0.5];
/// let mut operators = [0.0; 8];
/// get_m2m_transfer_operators(2, &nodes, &node_polynomials, &mut operators)?;
/// assert_eq!(operators, [0.875, 0.125, 0.625, 0.375, 0.375, 0.625, 0.125, 0.875]);
/// assert_eq!(
///     get_m2m_transfer_operators(2, &nodes, &nodes, &mut operators),
///     Err(Refusal::WrongLength)
/// );
/// # Ok::<(), Refusal>(())
/// ```
pub fn get_m2m_transfer_operators(
    order: usize,
    nodes: &[f64],
    node_polynomials: &[f64],
    operators: &mut [f64],
) -> Result<(), Refusal> {
    told(sys::get_m2m_transfer_operators(
        order,
        nodes,
        node_polynomials,
        operators,
    ))
}

/// Moves the values at the nodes of a child to its block, or, with `transpose`, from the block to
/// the child. The child is below 2, 4, 8 for dimension 1, 2, 3; it is the upper one on axis a where
/// bit a of it is 1.
///
/// - `input`: N entries.
/// - `operators`: p by 2p, as from [`get_m2m_transfer_operators`].
/// - `first`, `second`: N entries each. One becomes the result, the other what the last pass read.
///
/// Answers the buffer that has the result: `first` for dimension 2, and `second` otherwise.
///
/// # Errors
///
/// [`Refusal::NoDimension`], [`Refusal::NoOrder`], [`Refusal::NoCase`] and
/// [`Refusal::WrongLength`].
///
/// # Examples
///
/// ```
/// use bbfmm::{Refusal, apply_cheb_tensor_transfer};
///
/// // The columns (1, 2) and (3, 4) for the lower child, and none for the upper.
/// let operators = [1.0, 2.0, 3.0, 4.0, 0.0, 0.0, 0.0, 0.0];
/// let input = [1.0, 10.0];
/// let (mut first, mut second) = ([0.0; 2], [0.0; 2]);
/// let (a, b) = (&mut first, &mut second);
/// let up = apply_cheb_tensor_transfer(1, 2, 0, false, &input, &operators, a, b)?;
/// assert_eq!(up, [31.0, 42.0]);
/// let down = apply_cheb_tensor_transfer(1, 2, 0, true, &input, &operators, a, b)?;
/// assert_eq!(down, [21.0, 43.0]);
/// assert_eq!(
///     apply_cheb_tensor_transfer(1, 2, 2, true, &input, &operators, a, b),
///     Err(Refusal::NoCase)
/// );
/// assert_eq!(first, input);
/// # Ok::<(), Refusal>(())
/// ```
#[expect(clippy::too_many_arguments, reason = "they are those of the call")]
pub fn apply_cheb_tensor_transfer<'a>(
    dimension: usize,
    order: usize,
    child: usize,
    transpose: bool,
    input: &[f64],
    operators: &[f64],
    first: &'a mut [f64],
    second: &'a mut [f64],
) -> Result<&'a mut [f64], Refusal> {
    told(sys::apply_cheb_tensor_transfer(
        dimension, order, child, transpose, input, operators, first, second,
    ))?;
    Ok(if dimension == 2 { first } else { second })
}
