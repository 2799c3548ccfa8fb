//! Square roots, and the distances between the nodes of two blocks. The text has neither.

use super::blocks::shape_in_words;
use super::{Measure, SIZES, node_polynomials};
use std::hint::black_box;

/// How many roots are taken for each size.
const ROOTS: [usize; SIZES] = [1, 100, 1000];

/// A dimension and an order for each size. The last has 1,000 nodes: no other order comes as near to the limit of 1,024.
const SHAPES: [(usize, usize); SIZES] = [(1, 2), (2, 8), (3, 10)];

/// A normal float above 0: all exponents and fractions, spread evenly and in no order.
fn normal(k: usize) -> f64 {
    let bits = (k as u64 + 1).wrapping_mul(0x9e37_79b9_7f4a_7c15);
    f64::from_bits(((1 + (bits >> 52) % 2046) << 52) | (bits & 0xf_ffff_ffff_ffff))
}

/// One root a number of a list, so that many sorts of numbers are asked for.
pub fn square_root(size: usize) -> Measure {
    let count = ROOTS[size];
    let numbers: Vec<f64> = (0..count).map(normal).collect();
    let mut roots = vec![0.0; count];
    Measure {
        given: format!("{count} {}", if count == 1 { "number" } else { "numbers" }),
        floor: count,
        ours: Box::new(move || {
            for (root, &number) in roots.iter_mut().zip(black_box(&numbers)) {
                *root = ours::square_root(number);
            }
            black_box(&mut roots);
        }),
        text: None,
    }
}

/// Of each entry: a multiply-add an axis, and its root. Of each point: a multiplication an axis.
pub fn sample_distances(size: usize) -> Measure {
    let (dimension, order) = SHAPES[size];
    let (nodes, _) = node_polynomials(order);
    let count = order.pow(dimension as u32);
    let coordinates = dimension * count;
    let (mut sources, mut targets, mut block) = (vec![0.0; coordinates], vec![0.0; coordinates], vec![0.0; count * count]);
    Measure {
        given: shape_in_words(dimension, order),
        floor: (dimension + 1) * count * count + 2 * coordinates,
        ours: Box::new(move || {
            let length = black_box(2.0);
            ours::sample_distances(dimension, order, length, 1, &nodes, &mut sources, &mut targets, &mut block)
                .expect("lengths")
        }),
        text: None,
    }
}
