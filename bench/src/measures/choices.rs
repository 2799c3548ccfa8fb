//! Masked argmax, rank cutoff and cross approximation, which has two modes; the text has the old one.

use super::{Measure, floats};
use crate::aca::{self, doors};
use faer::Mat;
use ours::{Buffers, Mode};
use std::hint::black_box;

const COUNTS: [usize; 3] = [16, 128, 1024];

pub fn argmax(size: usize) -> Measure {
    let count = COUNTS[size];
    let entries = floats(count);
    let mask: Vec<u8> = (0..count).map(|k| (k % 3 != 0) as u8).collect();
    let same_mask = mask.clone();
    let row = Mat::from_fn(1, count, |_, column| entries[column]);
    Measure {
        given: format!("{count} entries"),
        floor: count,
        ours: Box::new(move || black_box(ours::argmax_masked(black_box(&entries), &mask)).map(drop).expect("a mask")),
        text: Some(Box::new(move || {
            black_box(doors::argmax(black_box(&row), &same_mask));
        })),
    }
}

pub fn cutoff(size: usize) -> Measure {
    let count = COUNTS[size];
    let values: Vec<f64> = (0..count).map(|k| 1.0 / (k + 1) as f64).collect();
    let same = values.clone();
    Measure {
        given: format!("{count} values"),
        floor: 2 * count,
        ours: Box::new(move || {
            black_box(ours::calculate_singular_values_cutoff(black_box(&values), 0.01)).map(drop).expect("values")
        }),
        text: Some(Box::new(move || {
            black_box(aca::calculate_singular_values_cutoff(black_box(&same).clone(), &0.01));
        })),
    }
}

/// A smooth block: what lies at i and at j + count acts with the inverse of the distance.
fn block(count: usize) -> Vec<f64> {
    let place = |k: usize| k as f64 / count as f64;
    (0..count * count).map(|k| 1.0 / (1.5 + place(k / count) - place(k % count))).collect()
}

/// Of each term: its row and its column less the earlier terms, its cross terms with them, its norm and its scaling.
fn floor(count: usize, rank: usize) -> usize {
    (0..rank).map(|earlier| 2 * count * (2 * earlier + 1) + count).sum()
}

/// Approximates a smooth block as often as it is called, and answers the rank. The block has no bad row, so that both modes find
/// the same; it is square, so that the list of rows is as long in both.
fn approximate(count: usize, mode: Mode) -> impl FnMut() -> usize {
    let samples = block(count);
    let (mut u, mut v) = (vec![0.0; count * count], vec![0.0; count * count]);
    let (mut row_list, mut column_list) = (vec![0; count], vec![0; count]);
    let (mut row, mut column) = (vec![0.0; count], vec![0.0; count]);
    move || {
        let mut buffers = Buffers {
            u: &mut u,
            v: &mut v,
            row_list: &mut row_list,
            column_list: &mut column_list,
            row: &mut row,
            column: &mut column,
        };
        ours::aca_partial_pivoting(count, count, black_box(&samples), 1e-6, mode, &mut buffers).expect("lengths").rank
    }
}

fn cross_of(size: usize, mode: Mode, text: Option<Box<dyn FnMut()>>) -> Measure {
    let count = COUNTS[size];
    let mut approximate = approximate(count, mode);
    let rank = approximate();
    Measure {
        given: format!("{count} by {count}, of rank {rank}"),
        floor: floor(count, rank),
        ours: Box::new(move || {
            black_box(approximate());
        }),
        text,
    }
}

pub fn cross(size: usize) -> Measure {
    let count = COUNTS[size];
    let same = block(count);
    let text = move || {
        let part = |&top: &usize, &bottom: &usize, &left: &usize, &right: &usize| {
            Mat::from_fn(bottom - top, right - left, |i, j| same[(left + j) * count + top + i])
        };
        drop(black_box(aca::aca_partial_pivoting(count, count, part, black_box(&1e-6))))
    };
    cross_of(size, Mode::Old, Some(Box::new(text)))
}

pub fn restart(size: usize) -> Measure {
    cross_of(size, Mode::Restart, None)
}
