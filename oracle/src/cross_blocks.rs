//! Blocks whose sums round: smooth kernels on separated points, and what is drawn beside them.

use crate::cross::Block;
use crate::random::{Random, SMALL};

/// Tolerances from coarse to none.
pub const EPSILONS: [f64; 4] = [1e-3, 1e-6, 1e-12, 0.0];

/// How far apart the middles of drawn targets and drawn sources are; both reach 1 to each side.
const APART: f64 = 4.0;

/// The kernel 1 / (1 + distance), for targets between 0 and 1 and sources between 2 and 3.
pub fn smooth(shape: (usize, usize), epsilon: f64) -> Block {
    let spread = |place: usize, count: usize| (place as f64 + 0.5) / count as f64;
    Block::from_fn(shape, epsilon, |row, column| {
        let distance = 2.0 + spread(column, shape.1) - spread(row, shape.0);
        1.0 / (1.0 + distance)
    })
}

/// The stored blocks of a tolerance: zeros, one row, one column, and the largest smooth ones.
pub fn stored(epsilon: f64) -> Vec<Block> {
    let zeros = [(1, 1), (3, 4), (16, 16)];
    let lines = [(1, 1), (1, 7), (7, 1), (1, 255), (255, 1)];
    let large = [(64, 64), (255, 16), (16, 255), (128, 32)];
    let zeros = zeros.map(|shape| Block::from_fn(shape, epsilon, |_, _| 0.0));
    let smooth = lines.into_iter().chain(large);
    let smooth = smooth.map(|shape| self::smooth(shape, epsilon));
    zeros.into_iter().chain(smooth).collect()
}

/// The shapes that blocks are drawn in.
const SHAPES: [(usize, usize); 6] = [(3, 3), (5, 4), (8, 8), (12, 20), (27, 27), (40, 40)];

/// The same kernel for targets and sources drawn in two boxes of some dimension.
pub fn apart(random: &mut Random, shape: (usize, usize), dimension: usize, epsilon: f64) -> Block {
    let targets = random.units(shape.0 * dimension);
    let sources = random.units(shape.1 * dimension);
    Block::from_fn(shape, epsilon, |row, column| {
        let squares = (0..dimension).map(|axis| {
            let shift = if axis == 0 { APART } else { 0.0 };
            let source = shift + sources[column * dimension + axis];
            (source - targets[row * dimension + axis]).powi(2)
        });
        1.0 / (1.0 + squares.sum::<f64>().sqrt())
    })
}

/// Smooth blocks on drawn points, of every dimension, which are not stored.
pub fn boxes(random: &mut Random, epsilon: f64) -> Vec<Block> {
    SHAPES
        .into_iter()
        .flat_map(|shape| [1, 1, 2, 2, 2, 3, 3, 3].map(|dimension| (shape, dimension)))
        .map(|(shape, dimension)| apart(random, shape, dimension, epsilon))
        .collect()
}

/// Blocks that no kernel makes, of full rank as a rule: drawn floats, and small whole numbers.
pub fn drawn(random: &mut Random, epsilon: f64) -> Vec<Block> {
    let mut blocks = Vec::new();
    for (rows, columns) in SHAPES {
        for _ in 0..4 {
            let count = rows * columns;
            for entries in [random.units(count), random.picks(count, &SMALL)] {
                blocks.push(Block {
                    rows,
                    columns,
                    epsilon,
                    entries,
                });
            }
        }
    }
    blocks
}

/// The smallest blocks whose ranks depend on the order in which a product adds.
///
/// In the first, the test after the second term is one of 18 against a quarter of 72, either of
/// which may round. Blocks with fewer entries have at most two terms, and the rank of those depends on
/// no sum of three products, unless it overflows: so it does in the second, after the first term.
pub fn order_matters() -> [Block; 2] {
    let equal = [[1.0, -2.0, 5.0], [-4.0, 5.0, -2.0], [-1.0, -1.0, 4.0]];
    // The power 2^509, and a float near it whose square is most of what is left up to the largest.
    let power = f64::from_bits(0x5fc0_0000_0000_0000);
    let rest = f64::from_bits(0x5fe5_4aa7_fea9_d4bf);
    let huge = [[power, 2.0 * power, 5.0 * power], [0.0, 0.0, rest]];
    [
        Block::from_fn((3, 3), 0.5, |row, column| equal[row][column]),
        Block::from_fn((2, 3), 0.5, |row, column| huge[row][column]),
    ]
}
