//! Blocks of nodes: their transfer, and where they lie.

use super::{Measure, SHAPES, floats, node_polynomials};
use crate::chebyshev::{apply_cheb_tensor_transfer, doors};
use faer::{Mat, MatRef};
use std::hint::black_box;

pub fn shape_in_words(dimension: usize, order: usize) -> String {
    format!("order {order}, dimension {dimension}")
}

fn transfer_of(size: usize, transpose: bool) -> Measure {
    let (dimension, order) = SHAPES[size];
    let nodes = order.pow(dimension as u32);
    let input = floats(nodes);
    let operators = floats(2 * order * order);
    let (same_input, same_operators) = (input.clone(), operators.clone());
    let (mut first, mut second) = (vec![0.0; nodes], vec![0.0; nodes]);
    let mut scratch = [Mat::zeros(nodes, 1), Mat::zeros(nodes, 1)];
    Measure {
        given: shape_in_words(dimension, order),
        floor: dimension * nodes * order,
        ours: Box::new(move || {
            let (input, operators) = (black_box(&input), black_box(&operators));
            ours::apply_cheb_tensor_transfer(dimension, order, 0, transpose, input, operators, &mut first, &mut second)
                .map(drop)
                .expect("lengths")
        }),
        text: Some(Box::new(move || {
            let operators = MatRef::from_column_major_slice(&same_operators, order, 2 * order);
            apply_cheb_tensor_transfer(black_box(&same_input), &mut scratch, operators, 0, order, dimension, transpose)
        })),
    }
}

pub fn transfer(size: usize) -> Measure {
    transfer_of(size, false)
}

pub fn transposed(size: usize) -> Measure {
    transfer_of(size, true)
}

pub fn target_points(size: usize) -> Measure {
    let (dimension, order) = SHAPES[size];
    let (nodes, _) = node_polynomials(order);
    let same = nodes.clone();
    let floor = dimension * order.pow(dimension as u32);
    let mut points = vec![0.0; floor];
    Measure {
        given: shape_in_words(dimension, order),
        floor,
        ours: Box::new(move || {
            ours::generate_chebyshev_target_points(dimension, order, black_box(2.0), &nodes, &mut points).expect("lengths")
        }),
        text: Some(Box::new(move || drop(black_box(doors::target_points(dimension, black_box(2.0), &same))))),
    }
}

pub fn source_points(size: usize) -> Measure {
    let (dimension, order) = SHAPES[size];
    let (nodes, _) = node_polynomials(order);
    let same = nodes.clone();
    let references = doors::references(dimension);
    let floor = dimension * order.pow(dimension as u32);
    let mut points = vec![0.0; floor];
    Measure {
        given: shape_in_words(dimension, order),
        floor,
        ours: Box::new(move || {
            ours::generate_chebyshev_source_points(dimension, order, black_box(2.0), 1, &nodes, &mut points).expect("lengths")
        }),
        text: Some(Box::new(move || {
            drop(black_box(doors::source_points(dimension, black_box(2.0), &references, 1, &same)))
        })),
    }
}
