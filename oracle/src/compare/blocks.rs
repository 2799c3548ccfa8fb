//! Draws the blocks that ask for cross approximations: those of the stored cases, and more. For restart
//! mode it also spoils rows, and lists every small block.

use super::draw;
use crate::cross::Block;
use crate::cross_blocks::{apart, order_matters, smooth};
use crate::cross_exact::whole;
use crate::crosses::{self, square};
use crate::floats::Stream;
use crate::random::Random;

/// Shapes that fill the memory of the replay, along one side or both.
const LARGEST: [(usize, usize); 7] = [
    (64, 64),
    (255, 16),
    (16, 255),
    (128, 32),
    (32, 128),
    (255, 1),
    (1, 255),
];

/// A small shape, and now and then one of the largest.
fn shape(random: &mut Random) -> (usize, usize) {
    match random.below(512) {
        0 => random.one_of(&LARGEST),
        1..16 => (1 + random.below(40), 1 + random.below(40)),
        16..128 => (1 + random.below(16), 1 + random.below(16)),
        128..136 => (random.below(3), random.below(3)),
        _ => (1 + random.below(6), 1 + random.below(6)),
    }
}

/// A sum of up to three products of drawn floats, whose residual is soon rounding only.
fn low_rank(random: &mut Random, shape: (usize, usize), epsilon: f64) -> Block {
    let terms: Vec<(Vec<f64>, Vec<f64>)> = (0..=random.below(3))
        .map(|_| (random.units(shape.0), random.units(shape.1)))
        .collect();
    Block::from_fn(shape, epsilon, |row, column| {
        terms.iter().map(|(u, v)| u[row] * v[column]).sum()
    })
}

/// Blocks that show one thing each: pivots near the least, rows that are read twice, zeros, and ranks
/// that depend on the order of adding.
fn fixed(random: &mut Random, epsilon: f64) -> Block {
    let least = f64::EPSILON;
    let pivots = [least, -least, least.next_down(), -least.next_up()];
    let entry = random.one_of(&pivots);
    let size = (1 + random.below(255)) as f64;
    let unread = draw::floats(random, 1)[0];
    match random.below(7) {
        0 => Block::from_fn((1, 1), epsilon, |_, _| entry),
        1 => square([1.0, 0.0, entry, unread], epsilon),
        2 => square([size, 0.0, 0.0, unread], epsilon),
        3 => Block::from_fn(shape(random), epsilon, |_, _| 0.0),
        4 => Block::from_fn(shape(random), epsilon, |_, _| -0.0),
        5 => {
            let [equal, _] = order_matters();
            equal
        }
        _ => {
            let [_, huge] = order_matters();
            huge
        }
    }
}

/// A block of any family, at any tolerance that the family allows.
fn block(random: &mut Random) -> Block {
    let (rows, columns) = shape(random);
    let epsilon = draw::epsilon(random);
    match random.below(10) {
        0 => {
            let rank = 1 + random.below(4);
            whole(random, (rows, columns), rank, epsilon)
        }
        1 => smooth((rows, columns), epsilon),
        2 => {
            let dimension = draw::dimension(random);
            apart(random, (rows, columns), dimension, epsilon)
        }
        3 => low_rank(random, (rows, columns), epsilon),
        4 => fixed(random, epsilon),
        _ => Block {
            rows,
            columns,
            epsilon,
            entries: draw::floats(random, rows * columns),
        },
    }
}

pub fn ask(random: &mut Random, stream: &mut Stream) -> Result<(), String> {
    crosses::ask(stream, &block(random)).map(drop)
}

pub fn ask_restart(random: &mut Random, stream: &mut Stream) -> Result<(), String> {
    crosses::ask_restart(stream, &block(random))
}

/// Makes a row one of zeros, a copy of any row, a tiny one, one about the least pivot, or one with a NaN
/// or an infinity in one column, or with NaN in all columns or all but one.
fn spoil(random: &mut Random, block: &mut Block, row: usize) {
    let sort = random.below(9);
    let (other, chosen) = (random.below(block.rows), random.below(block.columns));
    let least = f64::EPSILON;
    for column in 0..block.columns {
        let entry = block.entry(row, column);
        let spoilt = match sort {
            0 => 0.0,
            1 => -0.0,
            2 => block.entry(other, column),
            3 => entry * least * least,
            4 => random.one_of(&[0.0, least, least.next_down(), -least]),
            5 => f64::NAN,
            6 if column == chosen => f64::NAN,
            7 if column == chosen => random.one_of(&[f64::INFINITY, f64::NEG_INFINITY]),
            8 if column != chosen => f64::NAN,
            _ => entry,
        };
        block.entries[row + column * block.rows] = spoilt;
    }
}

/// Asks restart mode for a block of which about half of the rows are spoilt.
pub fn ask_spoilt(random: &mut Random, stream: &mut Stream) -> Result<(), String> {
    let mut block = block(random);
    for row in 0..block.rows {
        if block.columns > 0 && random.below(2) == 0 {
            spoil(random, &mut block, row);
        }
    }
    crosses::ask_restart(stream, &block)
}

/// Every block of these shapes whose entries are of a list, at each tolerance.
pub fn every(shapes: &[(usize, usize)], list: &[f64], epsilons: &[f64]) -> Vec<Block> {
    let mut blocks = Vec::new();
    for &(rows, columns) in shapes {
        let places = rows * columns;
        for number in 0..list.len().pow(places as u32) {
            // The digits of the number, in base of the list's length.
            let digit = |place| number / list.len().pow(place as u32) % list.len();
            blocks.extend(epsilons.iter().map(|&epsilon| Block {
                rows,
                columns,
                epsilon,
                entries: (0..places).map(|place| list[digit(place)]).collect(),
            }));
        }
    }
    blocks
}
