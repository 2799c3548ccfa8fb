//! The sampler of request E3: the distances from 01's source points to its target points.

use super::points::{Block, points};
use super::turn::bad_reference;
use super::{bad_cell, bad_dimension, bad_length, bad_order, nodes_of_block, refusal};

/// A block at a reference vector and the one about the origin.
#[derive(Clone, Copy, Debug)]
pub struct Pair {
    pub dimension: usize,
    pub order: usize,
    pub length: f64,
    pub reference: usize,
}

/// What is lent: sources, targets, the block of distances.
pub type Lent = [Vec<f64>; 3];

fn check(pair: Pair, nodes: &[f64], [sources, targets, block]: &Lent) -> Result<(), u8> {
    let Pair {
        dimension,
        order,
        length,
        reference,
    } = pair;
    let count = nodes_of_block(dimension, order);
    refusal(&[
        bad_cell(length),
        bad_length(nodes, &[order]),
        bad_length(sources, &[count, dimension]),
        bad_length(targets, &[count, dimension]),
        bad_length(block, &[count, count]),
        bad_reference(dimension, reference),
        (3, count > 1_024),
        bad_order(order),
        bad_dimension(dimension),
    ])
}

/// The points of the block at the reference vector, or of that about the origin where none is given.
fn points_of(pair: Pair, reference: Option<usize>, nodes: &[f64]) -> Result<Vec<f64>, u8> {
    let Pair {
        dimension,
        order,
        length,
        ..
    } = pair;
    let block = Block {
        dimension,
        order,
        length,
        reference,
    };
    let lent = vec![0.0; dimension * nodes_of_block(dimension, order)];
    let [places] = points(block, nodes, &lent)?;
    Ok(places)
}

/// The root of the sum of the squares of source less target, axis by axis from the first square on.
fn distance(source: impl Iterator<Item = f64>, target: impl Iterator<Item = f64>) -> f64 {
    let differences = source.zip(target).map(|(s, t)| s - t);
    let squares = differences.map(|difference| difference * difference);
    let sum = squares.reduce(|sum, square| sum + square);
    sum.expect("there is an axis").sqrt()
}

/// What all three lent buffers become: the row is the source, the column the target.
pub fn distances(pair: Pair, nodes: &[f64], lent: &Lent) -> Result<Lent, u8> {
    check(pair, nodes, lent)?;
    let sources = points_of(pair, Some(pair.reference), nodes)?;
    let targets = points_of(pair, None, nodes)?;
    let count = nodes_of_block(pair.dimension, pair.order);
    let mut block = vec![];
    for column in 0..count {
        for row in 0..count {
            // A point's coordinates stand a column apart.
            let source = sources[row..].iter().copied().step_by(count);
            let target = targets[column..].iter().copied().step_by(count);
            block.push(distance(source, target));
        }
    }
    Ok([sources, targets, block])
}
