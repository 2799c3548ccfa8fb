//! Opens the private functions of chebyshev.rs: a child may call what its parent keeps private.

// The parent silences warnings for the text; our own code must not hide behind that.
#![warn(clippy::all, dead_code, unused_imports)]

use super::{
    apply_cheb_tensor_transfer, evaluate_chebyshev_polynomials, generate_chebyshev_nodes,
    generate_chebyshev_source_points, generate_chebyshev_target_points,
    get_approximation_coefficients, get_m2l_vectors, get_m2m_transfer_operators,
    get_permutation_lookups,
};
use faer::{Mat, MatRef};

/// What the text answers for one dimension and one order.
pub struct Tables {
    pub dimension: usize,
    pub order: usize,
    /// Every transfer vector, in the order of the text.
    pub vectors: Vec<Vec<i32>>,
    /// The reference vectors, in the order of the text.
    pub references: Vec<Vec<i32>>,
    /// The combined permutation of each case.
    pub combined: Vec<Vec<usize>>,
    /// The inverse permutation of each case.
    pub inverse: Vec<Vec<usize>>,
    /// The case of each transfer vector.
    pub case_of: Vec<usize>,
    /// The reference of each transfer vector.
    pub reference_of: Vec<usize>,
}

fn rows(matrix: &Mat<i32>) -> Vec<Vec<i32>> {
    matrix
        .row_iter()
        .map(|row| row.iter().copied().collect())
        .collect()
}

/// Asks the text for its tables.
pub fn tables(dimension: usize, order: usize) -> Tables {
    let (vectors, references) = get_m2l_vectors(&dimension);
    let (combined, inverse, case_of, reference_of) =
        get_permutation_lookups(&dimension, &order, &vectors, &references);
    Tables {
        dimension,
        order,
        vectors: rows(&vectors),
        references: rows(&references),
        combined,
        inverse,
        case_of,
        reference_of,
    }
}

/// The entries of a matrix, column after column.
fn entries(matrix: &Mat<f64>) -> Vec<f64> {
    (0..matrix.ncols())
        .flat_map(|column| matrix.col_as_slice(column).to_vec())
        .collect()
}

/// A matrix of these entries, column after column.
fn matrix(entries: &[f64], rows: usize, columns: usize) -> Mat<f64> {
    MatRef::from_column_major_slice(entries, rows, columns).to_owned()
}

/// Asks the text for the nodes of an order.
pub fn nodes(order: usize) -> Vec<f64> {
    generate_chebyshev_nodes(&order)
}

/// Asks the text for the polynomials below an order at some points, and for their derivatives.
pub fn polynomials(
    order: usize,
    points: &[f64],
    with_derivatives: bool,
) -> (Vec<f64>, Option<Vec<f64>>) {
    let (values, derivatives) =
        evaluate_chebyshev_polynomials(order, points.len(), points, with_derivatives);
    (entries(&values), derivatives.as_ref().map(entries))
}

/// Asks the text for the operators of an order, from nodes and the polynomials there.
pub fn operators(order: usize, nodes: &[f64], node_polynomials: &[f64]) -> Vec<f64> {
    let polynomials = matrix(node_polynomials, order, order);
    entries(&get_m2m_transfer_operators(order, nodes, &polynomials))
}

/// A block to transfer: to its parent (M2M), or transposed to its child (L2L).
pub struct Block {
    pub dimension: usize,
    pub order: usize,
    pub child: usize,
    pub transpose: bool,
    pub input: Vec<f64>,
    pub operators: Vec<f64>,
}

/// Asks the text to transfer a block.
pub fn transferred(block: &Block) -> Vec<f64> {
    let nodes = block.input.len();
    let mut scratch = [Mat::zeros(nodes, 1), Mat::zeros(nodes, 1)];
    apply_cheb_tensor_transfer(
        &block.input,
        &mut scratch,
        MatRef::from_column_major_slice(&block.operators, block.order, 2 * block.order),
        block.child,
        block.order,
        block.dimension,
        block.transpose,
    );
    entries(&scratch[0])
}

/// Asks the text for the points of a target block.
pub fn target_points(dimension: usize, length: f64, nodes: &[f64]) -> Vec<f64> {
    entries(&generate_chebyshev_target_points(
        &nodes.to_vec(),
        &dimension,
        &length,
    ))
}

/// Asks the text for the points of a source block, at the reference vector with that number.
pub fn source_points(dimension: usize, length: f64, reference: usize, nodes: &[f64]) -> Vec<f64> {
    let (_, references) = get_m2l_vectors(&dimension);
    entries(&generate_chebyshev_source_points(
        &nodes.to_vec(),
        references.row(reference),
        &nodes.len(),
        &dimension,
        &length,
    ))
}

/// A cell, the polynomials at its nodes, and points whose coefficients are asked for.
pub struct Cell {
    pub dimension: usize,
    pub order: usize,
    pub with_gradients: bool,
    pub length: f64,
    pub centre: Vec<f64>,
    /// One row a node, column after column.
    pub node_polynomials: Vec<f64>,
    /// One row a point, column after column.
    pub points: Vec<f64>,
}

impl Cell {
    /// How many points there are.
    pub fn rows(&self) -> usize {
        self.points.len() / self.dimension
    }
}

/// What the text answers for a cell, each matrix column after column.
pub struct Coefficients {
    /// The points as the text leaves them, scaled.
    pub points: Vec<f64>,
    pub values: Vec<f64>,
    pub gradients: Option<Vec<f64>>,
}

/// Asks the text for the coefficients of a cell's points.
pub fn coefficients(cell: &Cell) -> Coefficients {
    let mut points = matrix(&cell.points, cell.rows(), cell.dimension);
    let answer = get_approximation_coefficients(
        cell.order,
        &mut points,
        &cell.centre,
        &cell.length,
        &matrix(&cell.node_polynomials, cell.order, cell.order),
        &cell.dimension,
        cell.with_gradients,
    );
    Coefficients {
        points: entries(&points),
        values: entries(&answer.values),
        gradients: answer.gradients.as_ref().map(entries),
    }
}
