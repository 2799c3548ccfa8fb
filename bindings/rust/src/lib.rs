//! The operators of a black-box fast multipole method, from a library in which every call is proved
//! to meet its contract: Chebyshev nodes and polynomials, transfer between a block and its
//! children, turning a block, points, distances, coefficients of values, gradients and curvature,
//! Graham's ratio, blocks as Matrix Market texts, cross approximation.
//!
//! Each function here is one call of the static library `libbbfmm.a`. It copies nothing, allocates
//! nothing and keeps nothing between calls, so any thread may call it. It ends for every input,
//! never panics with the library that it was built for, and answers a [`Refusal`] where the input
//! lies outside its limits; then every lent slice is as it came. The calls on texts answer a
//! [`TextRefusal`], which has a line too. [`square_root`] takes every float.
//!
//! # Words
//!
//! D is the dimension, 1 to 3. p is the order, 1 to 16: how many nodes a block has along an axis. N
//! is p to the power of D, all its nodes. They are numbered with the last axis varying fastest. P
//! is the number of points. Matrices are column-major: with R rows, the entry of row i and column j
//! stands at i + j * R. The lengths of slices are exact: any other is refused with
//! [`Refusal::WrongLength`].
//!
//! Floats may be any, NaN and infinities included, where no refusal says otherwise. Each operation
//! rounds once.
//!
//! # An example
//!
//! The block at the vector (0, -2) is a turn of a stored reference block. Its tables say how the
//! nodes are renumbered.
//!
//! ```
//! # fn main() -> Result<(), bbfmm::Refusal> {
//! let entry = bbfmm::look_up(2, [0, -2, 0])?;
//! assert_eq!(bbfmm::reference_vector(2, entry.reference)?, [2, 0, 0]);
//!
//! let mut table = [0; 9];
//! bbfmm::combined_permutation(2, 3, entry.case, &mut table)?;
//! assert_eq!(table, [2, 5, 8, 1, 4, 7, 0, 3, 6]);
//! # Ok(())
//! # }
//! ```
#![no_std]
#![deny(missing_docs)]
#![deny(unsafe_code)]

mod aca;
mod chebyshev;
mod choices;
mod coefficients;
mod curvature;
mod distances;
mod exchange;
mod points;
mod ratios;
mod refusal;
mod sys;
mod transfer;
mod turn;

pub use aca::{Buffers, Mode, Report, Stop, aca_partial_pivoting};
pub use chebyshev::{
    evaluate_chebyshev_polynomials, evaluate_second_derivatives, generate_chebyshev_nodes,
    generate_node_set,
};
pub use choices::{argmax_masked, calculate_singular_values_cutoff};
pub use coefficients::{Gradients, get_approximation_coefficients, scale_points};
pub use curvature::{Curvatures, get_curvature_coefficients};
pub use distances::{sample_distances, square_root};
pub use exchange::{Size, TextRefusal, block_size, read_block, write_block};
pub use points::{generate_chebyshev_source_points, generate_chebyshev_target_points};
pub use ratios::{Air, Cell, Gases, graham_ratios};
pub use refusal::Refusal;
pub use transfer::{apply_cheb_tensor_transfer, get_m2m_transfer_operators};
pub use turn::{
    Entry, Moves, combined_permutation, follow_node, inverse_permutation, look_up, reference_vector,
};
