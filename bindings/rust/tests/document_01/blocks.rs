//! Draws the blocks that are approximated, some with what a run can stumble over: rows of zeros, rows
//! that repeat, tiny pivots, NaN and infinities.

use crate::draw::Draw;

/// The sum of so many products of a column and a row.
fn low_rank(draw: &mut Draw, rows: usize, columns: usize, rank: usize) -> Vec<f64> {
    let mut samples = vec![0.0; rows * columns];
    for _ in 0..rank {
        let (u, v) = (draw.floats(rows), draw.floats(columns));
        for (place, sample) in samples.iter_mut().enumerate() {
            *sample += u[place % rows] * v[place / rows];
        }
    }
    samples
}

/// One over one and the distance, as of two clouds: it has no low rank, and its terms fall fast.
pub fn smooth(rows: usize, columns: usize) -> Vec<f64> {
    let entry = |place: usize| 1.0 / (1.0 + (place % rows) as f64 + 1.5 * (place / rows) as f64);
    (0..rows * columns).map(entry).collect()
}

/// The entry is the level of the lower of two remainders, so that the block has rank 5 and nothing
/// rounds. It has as many rows as columns.
pub fn levels(side: usize) -> Vec<f64> {
    const LEVELS: [f64; 5] = [1.0, -1.0, 3.0, -5.0, 11.0];
    let level = |place: usize| LEVELS[(place % side % 5).min(place / side % 5)];
    (0..side * side).map(level).collect()
}

/// A block of any sort, and now and then of another size than it should have.
pub fn samples(draw: &mut Draw, rows: usize, columns: usize) -> Vec<f64> {
    match draw.below(5) {
        0 => low_rank(draw, rows, columns, 1),
        1 => low_rank(draw, rows, columns, 2),
        2 => smooth(rows, columns),
        3 => spoilt(draw, rows, columns),
        _ => draw.lent(rows * columns),
    }
}

/// A block of which about half of the rows are spoilt.
pub fn spoilt(draw: &mut Draw, rows: usize, columns: usize) -> Vec<f64> {
    let mut samples = match draw.below(3) {
        0 => low_rank(draw, rows, columns, 2),
        1 => smooth(rows, columns),
        _ => draw.floats(rows * columns),
    };
    for row in 0..rows {
        if columns > 0 && draw.one_in(2) {
            spoil(draw, rows, row, &mut samples);
        }
    }
    samples
}

/// Makes a row one of zeros, a copy, a tiny one, one about the least pivot, or one that has a NaN or an
/// infinity, or only NaN.
fn spoil(draw: &mut Draw, rows: usize, row: usize, samples: &mut [f64]) {
    let (sort, other) = (draw.below(9), draw.below(rows));
    let chosen = draw.below(samples.len() / rows);
    for column in 0..samples.len() / rows {
        let at = row + column * rows;
        let entry = samples[at];
        samples[at] = match sort {
            0 => 0.0,
            1 => -0.0,
            2 => samples[other + column * rows],
            3 => entry * 2f64.powi(-60),
            4 => draw.one_of(&[0.0, f64::EPSILON, f64::EPSILON.next_down(), -f64::EPSILON]),
            5 => f64::NAN,
            6 if column == chosen => f64::NAN,
            7 if column == chosen => draw.one_of(&[f64::INFINITY, f64::NEG_INFINITY]),
            8 if column != chosen => f64::NAN,
            _ => entry,
        };
    }
}

/// Every block of this shape with entries of a list.
pub fn every(rows: usize, columns: usize, entries: &[f64]) -> Vec<Vec<f64>> {
    let sorts = entries.len();
    let entry = |number: usize, place: usize| entries[number / sorts.pow(place as u32) % sorts];
    let block = |number| {
        (0..rows * columns)
            .map(|place| entry(number, place))
            .collect()
    };
    (0..sorts.pow((rows * columns) as u32)).map(block).collect()
}
