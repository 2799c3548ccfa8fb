//! The rules of document 01 and of the requests that followed it, one file for each part. A rule
//! answers what the call must leave, or a refusal's number.

pub mod before;
pub mod chebyshev;
pub mod choices;
pub mod coefficients;
pub mod cross;
pub mod curvature;
pub mod distances;
pub mod exchange;
pub mod points;
pub mod ratios;
pub mod roots;
pub mod transfer;
pub mod turn;

/// The lowest number whose fault is there. The faults may stand in any order.
pub fn refusal(faults: &[(u8, bool)]) -> Result<(), u8> {
    let there = faults.iter().filter(|(_, is_there)| *is_there);
    match there.map(|(number, _)| *number).min() {
        Some(number) => Err(number),
        None => Ok(()),
    }
}

pub fn bad_dimension(dimension: usize) -> (u8, bool) {
    (1, !(1..=3).contains(&dimension))
}

pub fn bad_order(order: usize) -> (u8, bool) {
    (2, !(1..=16).contains(&order))
}

/// Whether a buffer has not the length that is the product of these numbers.
pub fn bad_length<T>(buffer: &[T], numbers: &[usize]) -> (u8, bool) {
    let product = |all: u128, number: &usize| all.saturating_mul(*number as u128);
    (7, buffer.len() as u128 != numbers.iter().fold(1, product))
}

pub fn bad_cell(length: f64) -> (u8, bool) {
    (8, !(2f64.powi(-20)..=2f64.powi(30)).contains(&length))
}

/// N, the order to the power of the dimension. A dimension outside the limits is refused before any
/// length, and so has any N.
pub fn nodes_of_block(dimension: usize, order: usize) -> usize {
    (0..dimension.min(3)).fold(1, |all, _| all.saturating_mul(order))
}

/// A node's index on each axis, the last axis varying fastest.
pub fn indices(dimension: usize, order: usize, node: usize) -> Vec<usize> {
    let weight = |axis: usize| order.pow((dimension - 1 - axis) as u32);
    (0..dimension)
        .map(|axis| node / weight(axis) % order)
        .collect()
}

/// The node with these indices.
pub fn node(order: usize, indices: &[usize]) -> usize {
    indices.iter().fold(0, |node, index| node * order + index)
}

/// The sum of the products of two lists, in rising index from +0.0.
pub fn dot(left: impl Iterator<Item = f64>, right: impl Iterator<Item = f64>) -> f64 {
    left.zip(right).fold(0.0, |sum, (l, r)| sum + l * r)
}
