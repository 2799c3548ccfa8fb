//! What is measured: each call at a small, a middle and the largest size, ours and the text's, over inputs made beforehand.

mod blocks;
mod cells;
mod choices;
mod distances;
mod exchange;
mod polynomials;
mod ratios;
mod turns;

/// One call, ours and the text's: what it is given, and how many multiply-adds its rule needs, or stores or compares where
/// it multiplies nothing. Where the text has no such call there is none.
pub struct Measure {
    pub given: String,
    pub floor: usize,
    pub ours: Box<dyn FnMut()>,
    pub text: Option<Box<dyn FnMut()>>,
}

/// How many sizes each call is measured at.
pub const SIZES: usize = 3;

/// A dimension and an order for each size.
pub const SHAPES: [(usize, usize); SIZES] = [(1, 2), (2, 8), (3, 16)];

pub type Make = fn(usize) -> Measure;

pub const CALLS: [(&str, Make); 33] = [
    ("generate_chebyshev_nodes", polynomials::nodes),
    ("evaluate_chebyshev_polynomials", polynomials::values),
    ("evaluate_chebyshev_polynomials, with derivatives", polynomials::derivatives),
    ("get_m2m_transfer_operators", polynomials::operators),
    ("apply_cheb_tensor_transfer", blocks::transfer),
    ("apply_cheb_tensor_transfer, transposed", blocks::transposed),
    ("look_up", turns::look_up),
    ("follow_node", turns::follow_node),
    ("reference_vector", turns::reference_vector),
    ("combined_permutation", turns::combined),
    ("inverse_permutation", turns::inverse),
    ("the turn: all four, for every vector and case", turns::whole),
    ("generate_chebyshev_target_points", blocks::target_points),
    ("generate_chebyshev_source_points", blocks::source_points),
    ("square_root", distances::square_root),
    ("sample_distances", distances::sample_distances),
    ("scale_points", cells::scale_points),
    ("get_approximation_coefficients", cells::values),
    ("get_approximation_coefficients, with gradients", cells::gradients),
    ("scale_points, refused with 9 at the last coordinate", cells::not_finite),
    ("scale_points, refused with 11 at the last coordinate", cells::out_of_cell),
    ("scale_points and get_approximation_coefficients", cells::values_of_points),
    ("scale_points and get_approximation_coefficients, with gradients", cells::gradients_of_points),
    ("graham_ratios", ratios::graham_ratios),
    ("argmax_masked", choices::argmax),
    ("calculate_singular_values_cutoff", choices::cutoff),
    ("aca_partial_pivoting", choices::cross),
    ("aca_partial_pivoting, restart", choices::restart),
    ("read_block", exchange::read_block),
    ("write_block", exchange::write_block),
    ("generate_node_set, mirror-exact", polynomials::mirror_exact),
    ("evaluate_second_derivatives", polynomials::second_derivatives),
    ("get_curvature_coefficients", cells::curvature),
];

/// Floats between -1 and 1, as many as wanted, in no order.
pub fn floats(count: usize) -> Vec<f64> {
    (0..count).map(|k| (k * 7919 % 10007) as f64 / 5003.5 - 1.0).collect()
}

/// The nodes of an order, and the polynomials there.
pub fn node_polynomials(order: usize) -> (Vec<f64>, Vec<f64>) {
    let mut nodes = vec![0.0; order];
    let mut polynomials = vec![0.0; order * order];
    ours::generate_chebyshev_nodes(order, &mut nodes).expect("an order");
    ours::evaluate_chebyshev_polynomials(order, &nodes, &mut polynomials, None).expect("nodes");
    (nodes, polynomials)
}
