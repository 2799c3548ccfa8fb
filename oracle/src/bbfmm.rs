//! Stand-in for the module `bbfmm`, whose text we do not have: two types chebyshev.rs names.

use faer::Mat;
use std::collections::HashMap;

/// How the M2L operators are to be compressed.
pub enum M2LCompressionType {
    None,
    SVD,
    ACA,
}

/// What `precompute_approximation_operators` returns; operators are kept by level, then reference.
pub struct PrecomputeOperators {
    pub num_nodes_nd: usize,
    pub polynomial_nodes: Mat<f64>,
    pub m2m_transfer_operators: Mat<f64>,
    pub u: HashMap<usize, HashMap<usize, Mat<f64>>>,
    pub vt: HashMap<usize, HashMap<usize, Mat<f64>>>,
    pub permutation_indices: Vec<Vec<usize>>,
    pub inverse_permutations: Vec<Vec<usize>>,
    pub permutation_lookups: Vec<usize>,
    pub reference_vector_lookups: Vec<usize>,
}
