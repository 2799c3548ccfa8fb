//! Turning a block. The text has no call for one vector or one case: it makes everything of a dimension and an order at once.

use super::{Measure, SHAPES};
use crate::chebyshev::doors;
use std::hint::black_box;

const CASES: [usize; 4] = [0, 2, 8, 48];
const REFERENCES: [usize; 4] = [0, 2, 7, 16];
const VECTORS: [[i32; 3]; 3] = [[-2, 0, 0], [0, -2, 0], [0, -2, 1]];

pub fn look_up(size: usize) -> Measure {
    let dimension = size + 1;
    Measure {
        given: format!("dimension {dimension}"),
        floor: 4,
        ours: Box::new(move || {
            black_box(ours::look_up(dimension, black_box(VECTORS[size]))).map(drop).expect("a vector")
        }),
        text: None,
    }
}

pub fn follow_node(size: usize) -> Measure {
    let (dimension, order) = SHAPES[size];
    let node = order.pow(dimension as u32) / 2;
    Measure {
        given: format!("order {order}, dimension {dimension}"),
        floor: 2 * dimension,
        ours: Box::new(move || {
            black_box(ours::follow_node(dimension, order, black_box(VECTORS[size]), node)).map(drop).expect("a node")
        }),
        text: None,
    }
}

pub fn reference_vector(size: usize) -> Measure {
    let dimension = size + 1;
    Measure {
        given: format!("dimension {dimension}"),
        floor: 3,
        ours: Box::new(move || {
            black_box(ours::reference_vector(dimension, black_box(1))).map(drop).expect("a number")
        }),
        text: None,
    }
}

type Table = fn(usize, usize, usize, &mut [u16]) -> Result<(), ours::Refusal>;

fn table(size: usize, fill: Table) -> Measure {
    let (dimension, order) = SHAPES[size];
    let nodes = order.pow(dimension as u32);
    let mut table = vec![0; nodes];
    Measure {
        given: format!("order {order}, dimension {dimension}"),
        floor: nodes,
        ours: Box::new(move || fill(dimension, order, black_box(1), black_box(&mut table)).expect("lengths")),
        text: None,
    }
}

pub fn combined(size: usize) -> Measure {
    table(size, ours::combined_permutation)
}

pub fn inverse(size: usize) -> Measure {
    table(size, ours::inverse_permutation)
}

/// Every vector of a dimension, as three entries.
fn vectors(dimension: usize) -> Vec<[i32; 3]> {
    let entry = |k: usize, axis: usize| if axis < dimension { (k / 7usize.pow(axis as u32) % 7) as i32 - 3 } else { 0 };
    (0..7usize.pow(dimension as u32)).map(|k| [entry(k, 0), entry(k, 1), entry(k, 2)]).collect()
}

/// The references, every vector looked up, and both tables of every case.
pub fn whole(size: usize) -> Measure {
    let (dimension, order) = SHAPES[size];
    let nodes = order.pow(dimension as u32);
    let vectors = vectors(dimension);
    let floor = 4 * vectors.len() + 3 * REFERENCES[dimension] + 2 * CASES[dimension] * nodes;
    let mut tables = vec![0; 2 * CASES[dimension] * nodes];
    Measure {
        given: format!("order {order}, dimension {dimension}"),
        floor,
        ours: Box::new(move || {
            for number in 0..REFERENCES[dimension] {
                black_box(ours::reference_vector(dimension, number)).map(drop).expect("a number");
            }
            for &vector in black_box(&vectors) {
                black_box(ours::look_up(dimension, vector)).map(drop).expect("a vector");
            }
            for (case, pair) in tables.chunks_exact_mut(2 * nodes).enumerate() {
                let (table, inverse) = pair.split_at_mut(nodes);
                ours::combined_permutation(dimension, order, case, table).expect("lengths");
                ours::inverse_permutation(dimension, order, case, inverse).expect("lengths");
            }
            black_box(&mut tables);
        }),
        text: Some(Box::new(move || drop(black_box(doors::turn(black_box(dimension), order))))),
    }
}
