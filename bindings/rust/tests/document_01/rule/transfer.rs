//! The operators between a block and its children, and the tensor transfer.

use super::chebyshev::polynomials;
use super::{bad_dimension, bad_length, bad_order, dot, nodes_of_block, refusal};

/// Entry: (sum of T_k(node)*T_k(child)) * (2/p), less 1/p. Child nodes are (x-1)*0.5, then
/// (x+1)*0.5.
pub fn operators(
    order: usize,
    nodes: &[f64],
    node_polynomials: &[f64],
    lent: &[f64],
) -> Result<[Vec<f64>; 1], u8> {
    refusal(&[
        bad_length(lent, &[order, order, 2]),
        bad_length(node_polynomials, &[order, order]),
        bad_length(nodes, &[order]),
        bad_order(order),
    ])?;
    let p = order as f64;
    let lower = nodes.iter().map(|x| (x - 1.0) * 0.5);
    let upper = nodes.iter().map(|x| (x + 1.0) * 0.5);
    let mut entries = vec![];
    for child in lower.chain(upper) {
        let at_child = polynomials(order, child);
        for node in 0..order {
            let at_node = (0..order).map(|k| node_polynomials[node + k * order]);
            let sum = dot(at_node, at_child.iter().copied());
            entries.push(sum * (2.0 / p) - 1.0 / p);
        }
    }
    Ok([entries])
}

/// One pass: output place c + (N/p)*r is the sum over s of data at s + p*c, times operator (r,s),
/// or (s,r) with `transpose`.
fn pass(order: usize, operator: &[f64], transpose: bool, data: &[f64]) -> Vec<f64> {
    let many = data.len() / order;
    let mut output = vec![0.0; data.len()];
    for c in 0..many {
        for r in 0..order {
            let read = (0..order).map(|s| data[s + order * c]);
            let entry = |s: usize| {
                if transpose {
                    s + order * r
                } else {
                    r + order * s
                }
            };
            output[c + many * r] = dot(read, (0..order).map(|s| operator[entry(s)]));
        }
    }
    output
}

/// How a child lies to its block, and which way values move.
#[derive(Clone, Copy, Debug)]
pub struct Move {
    pub dimension: usize,
    pub order: usize,
    pub child: usize,
    pub transpose: bool,
}

fn check(
    moved: Move,
    input: &[f64],
    operators: &[f64],
    [first, second]: &[Vec<f64>; 2],
) -> Result<(), u8> {
    let nodes = nodes_of_block(moved.dimension, moved.order);
    refusal(&[
        bad_length(first, &[nodes]),
        bad_length(second, &[nodes]),
        bad_length(input, &[nodes]),
        bad_length(operators, &[moved.order, moved.order, 2]),
        (5, moved.child >= 1 << moved.dimension.min(3)),
        bad_order(moved.order),
        bad_dimension(moved.dimension),
    ])
}

/// Both buffers: the result is in the first for dimension 2, else in the second; the other has what
/// the last pass read.
pub fn transfer(
    moved: Move,
    input: &[f64],
    operators: &[f64],
    lent: &[Vec<f64>; 2],
) -> Result<[Vec<f64>; 2], u8> {
    check(moved, input, operators, lent)?;
    let (lower, upper) = operators.split_at(moved.order.pow(2));
    let mut read = vec![];
    let mut data = input.to_vec();
    for axis in (0..moved.dimension).rev() {
        let is_upper = (moved.child >> axis) & 1 == 1;
        let operator = if is_upper { upper } else { lower };
        read = data;
        data = pass(moved.order, operator, moved.transpose, &read);
    }
    Ok(match moved.dimension {
        2 => [data, read],
        _ => [read, data],
    })
}
