//! Target and source points.

use super::turn::{bad_reference, reference_vector};
use super::{bad_cell, bad_dimension, bad_length, bad_order, indices, nodes_of_block, refusal};

/// A block whose points are asked for; a reference number asks for source points.
#[derive(Clone, Copy, Debug)]
pub struct Block {
    pub dimension: usize,
    pub order: usize,
    pub length: f64,
    pub reference: Option<usize>,
}

/// One row a node, a column an axis. Target: x*(0.5*length). Source: (r + x*0.5)*length.
pub fn points(block: Block, nodes: &[f64], lent: &[f64]) -> Result<[Vec<f64>; 1], u8> {
    let Block {
        dimension,
        order,
        length,
        reference,
    } = block;
    let count = nodes_of_block(dimension, order);
    refusal(&[
        bad_cell(length),
        bad_length(lent, &[count, dimension]),
        bad_length(nodes, &[order]),
        reference.map_or((5, false), |number| bad_reference(dimension, number)),
        bad_order(order),
        bad_dimension(dimension),
    ])?;
    let vector = reference
        .map(|number| reference_vector(dimension, number))
        .transpose()?;
    let mut places = vec![];
    for axis in 0..dimension {
        for node in 0..count {
            let x = nodes[indices(dimension, order, node)[axis]];
            places.push(match vector {
                None => x * (0.5 * length),
                Some(vector) => (f64::from(vector[axis]) + x * 0.5) * length,
            });
        }
    }
    Ok([places])
}
