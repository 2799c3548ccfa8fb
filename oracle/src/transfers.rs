//! Builds the cases that ask for transferred blocks, after those that ask for operators.

use crate::floats::{Header, Stream, shown};
use crate::operators;
use crate::random::{Random, SMALL};
use oracle::chebyshev::reach::{self, Block};

const TRANSFER: u8 = 4;

const INFINITY: f64 = f64::INFINITY;
const NAN: f64 = f64::NAN;
const LEAST: f64 = f64::from_bits(1);

pub fn ask_transfer(stream: &mut Stream, block: &Block) {
    let header = Header {
        kind: TRANSFER,
        order: block.order,
        dimension: block.dimension,
        flag: block.transpose,
        rows: block.child,
    };
    let word = if block.transpose { "l2l" } else { "m2m" };
    let line = format!(
        "transfer {} {} {} {word}:{}",
        block.dimension,
        block.order,
        block.child,
        shown(&reach::transferred(block))
    );
    stream.case(header, &[&block.input, &block.operators], &line);
}

/// Every child and both directions, with floats drawn for each.
fn every_child(
    stream: &mut Stream,
    dimension: usize,
    order: usize,
    mut draw: impl FnMut(usize) -> Vec<f64>,
) {
    for child in 0..1 << dimension {
        for transpose in [false, true] {
            let block = Block {
                dimension,
                order,
                child,
                transpose,
                input: draw(order.pow(dimension as u32)),
                operators: draw(2 * order * order),
            };
            ask_transfer(stream, &block);
        }
    }
}

/// Blocks of negative zeros, of an infinity, and with one NaN among the operators.
fn special_blocks(stream: &mut Stream) {
    let mut spoilt = SMALL.repeat(5)[..32].to_vec();
    spoilt[6] = NAN;
    let zeros = (1, 4, vec![-0.0; 4], vec![2.0; 32]);
    let endless = (
        2,
        3,
        vec![1.0, -0.0, 2.0, -1.0, LEAST, -LEAST, INFINITY, 1.0, 2.0],
        [2.0, -1.0, 0.5].repeat(6),
    );
    let one_nan = (1, 4, vec![1.0, -2.0, LEAST, 3.0], spoilt);
    for (dimension, order, input, operators) in [zeros, endless, one_nan] {
        for transpose in [false, true] {
            let block = Block {
                dimension,
                order,
                child: 0,
                transpose,
                input: input.clone(),
                operators: operators.clone(),
            };
            ask_transfer(stream, &block);
        }
    }
}

/// The operators come first, then the blocks by dimension, the largest, and those of special floats.
pub fn ask_all(stream: &mut Stream) {
    let mut random = Random::new(2);
    operators::ask_all(stream, &mut random);
    for dimension in 1..=3 {
        for order in 1..=4 {
            every_child(stream, dimension, order, |n| random.picks(n, &SMALL));
        }
        for order in [2, 5, 8] {
            every_child(stream, dimension, order, |n| random.units(n));
        }
    }
    let (nodes, polynomials) = operators::true_nodes(16);
    let largest = Block {
        dimension: 3,
        order: 16,
        child: 6,
        transpose: false,
        input: random.units(4096),
        operators: reach::operators(16, &nodes, &polynomials),
    };
    ask_transfer(stream, &largest);
    special_blocks(stream);
}
