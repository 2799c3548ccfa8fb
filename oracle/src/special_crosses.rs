//! Builds the blocks of special floats and of strange tolerances, among those that ask for crosses.

use crate::cross::Block;
use crate::cross_blocks::smooth;
use crate::crosses::ask;
use crate::floats::Stream;
use crate::random::{Random, SMALL};

/// Zeros of both signs, subnormals, huge floats, infinities and NaN.
const SPECIAL: [f64; 12] = [
    0.0,
    -0.0,
    f64::from_bits(1),
    -f64::MIN_POSITIVE,
    1e-17,
    1e154,
    -1e200,
    f64::MAX,
    -f64::MAX,
    f64::INFINITY,
    -f64::INFINITY,
    f64::NAN,
];

/// Tolerances that no caller should give, and those at the edge.
const STRANGE_EPSILONS: [f64; 8] = [
    0.0,
    -0.0,
    -0.5,
    1e-170,
    1e200,
    f64::INFINITY,
    -f64::INFINITY,
    f64::NAN,
];

/// Each special float alone, and an entry whose square overflows, which ends the run at once.
fn alone(stream: &mut Stream) -> Result<(), String> {
    for entry in SPECIAL {
        ask(stream, &Block::from_fn((1, 1), 0.5, |_, _| entry))?;
    }
    let rows = [[1e155, 0.0], [1.0, 1.0]];
    for epsilon in [1e-6, 0.0] {
        let block = Block::from_fn((2, 2), epsilon, |row, column| rows[row][column]);
        ask(stream, &block)?;
    }
    Ok(())
}

/// Special floats among whole numbers, and blocks of nothing else.
fn special(stream: &mut Stream, random: &mut Random) -> Result<(), String> {
    let mixed: Vec<f64> = [SMALL.as_slice(), &SMALL, &SMALL, &SPECIAL].concat();
    let shapes = [(3, 3), (3, 5), (4, 4), (5, 3), (6, 8), (7, 7), (8, 8)];
    for (rows, columns) in shapes {
        for list in [mixed.as_slice(), &mixed, &mixed, &SPECIAL] {
            for epsilon in [0.0, 1e-6] {
                let block = Block {
                    rows,
                    columns,
                    epsilon,
                    entries: random.picks(rows * columns, list),
                };
                ask(stream, &block)?;
            }
        }
    }
    Ok(())
}

/// Strange tolerances, on whole numbers, on drawn floats, and on a smooth kernel.
fn strange(stream: &mut Stream, random: &mut Random) -> Result<(), String> {
    for epsilon in STRANGE_EPSILONS {
        let whole = random.picks(12, &SMALL);
        let drawn = random.units(30);
        let zeros = vec![0.0; 6];
        for (rows, columns, entries) in [(3, 4, whole), (6, 5, drawn), (2, 3, zeros)] {
            let block = Block {
                rows,
                columns,
                epsilon,
                entries,
            };
            ask(stream, &block)?;
        }
        ask(stream, &smooth((7, 9), epsilon))?;
    }
    Ok(())
}

/// Special entries come first, then strange tolerances.
pub fn ask_all(stream: &mut Stream) -> Result<(), String> {
    let mut random = Random::new(8);
    alone(stream)?;
    special(stream, &mut random)?;
    strange(stream, &mut random)
}
