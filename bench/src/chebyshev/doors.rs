//! Opens the private functions of chebyshev.rs, as they are: a child may call what its parent keeps private.

use super::*;

pub fn nodes(order: usize) -> Vec<f64> {
    generate_chebyshev_nodes(&order)
}

pub fn polynomials(order: usize, points: &[f64], with_derivatives: bool) -> (Mat<f64>, Option<Mat<f64>>) {
    evaluate_chebyshev_polynomials(order, points.len(), points, with_derivatives)
}

pub fn operators(order: usize, nodes: &[f64], polynomials: &Mat<f64>) -> Mat<f64> {
    get_m2m_transfer_operators(order, nodes, polynomials)
}

/// Every vector, every reference, every case, and both tables of every case.
pub fn turn(dimension: usize, order: usize) -> (Vec<Vec<usize>>, Vec<Vec<usize>>, Vec<usize>, Vec<usize>) {
    let (vectors, references) = get_m2l_vectors(&dimension);
    get_permutation_lookups(&dimension, &order, &vectors, &references)
}

pub fn references(dimension: usize) -> Mat<i32> {
    get_m2l_vectors(&dimension).1
}

pub fn target_points(dimension: usize, length: f64, nodes: &Vec<f64>) -> Mat<f64> {
    generate_chebyshev_target_points(nodes, &dimension, &length)
}

pub fn source_points(dimension: usize, length: f64, references: &Mat<i32>, number: usize, nodes: &Vec<f64>) -> Mat<f64> {
    generate_chebyshev_source_points(nodes, references.row(number), &nodes.len(), &dimension, &length)
}
