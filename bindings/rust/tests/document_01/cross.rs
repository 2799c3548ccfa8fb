//! Cross approximation: the report and all six lent buffers, in both modes.

mod held;
mod refusals;
mod unread;

use bbfmm::{Mode, Stop};

use crate::blocks::{every, levels, samples, smooth, spoilt};
use crate::draw::Draw;
use crate::held::same_floats;
use crate::rule::cross::Block;
use held::{Asked, Lent, MODES, Met, all_differ};

/// Drawn blocks in one mode, with drawn faults, and the stops that must be met.
fn small_blocks(mode: Mode, seed: u64, stops: &[usize]) {
    let mut draw = Draw::new(seed);
    let mut met = Met::default();
    for _ in 0..20_000 {
        let most = draw.one_of(&[2, 4, 9, 24]);
        let (rows, columns) = (draw.below(most + 1), draw.below(most + 1));
        let samples = samples(&mut draw, rows, columns);
        let epsilon = draw.epsilon();
        let block = Block::new(rows, columns, &samples);
        met.is_ruled(&mut draw, block, epsilon, mode);
    }
    met.stopped(1_000, stops);
    met.tally.reached("aca_partial_pivoting", &[0, 7]);
}

#[test]
fn small_blocks_are_ruled() {
    small_blocks(Mode::Old, 16, &[1, 2, 3]);
}

#[test]
fn small_blocks_are_ruled_in_restart_mode() {
    small_blocks(Mode::Restart, 32, &[1, 3, 4]);
}

/// Rows of zeros, rows that repeat, tiny pivots, NaN and infinities, in one mode.
fn spoilt_blocks(mode: Mode, seed: u64, stops: &[usize]) {
    let mut draw = Draw::fitting(seed);
    let mut met = Met::default();
    for _ in 0..20_000 {
        let most = draw.one_of(&[2, 4, 9, 24]);
        let (rows, columns) = (1 + draw.below(most), 1 + draw.below(most));
        let samples = spoilt(&mut draw, rows, columns);
        let epsilon = draw.epsilon();
        let block = Block::new(rows, columns, &samples);
        met.is_ruled(&mut draw, block, epsilon, mode);
    }
    met.stopped(1_000, stops);
    met.tally.reached("spoilt blocks", &[0]);
}

#[test]
fn spoilt_blocks_are_ruled() {
    spoilt_blocks(Mode::Old, 33, &[1, 2, 3]);
}

#[test]
fn spoilt_blocks_are_ruled_in_restart_mode() {
    spoilt_blocks(Mode::Restart, 34, &[1, 3, 4]);
}

/// Every block of these shapes with entries of a list, in both modes.
fn every_block(entries: &[f64], shapes: &[(usize, usize)]) -> Met {
    let mut draw = Draw::fitting(35);
    let mut met = Met::default();
    for &(rows, columns) in shapes {
        for samples in every(rows, columns, entries) {
            let block = Block::new(rows, columns, &samples);
            for epsilon in [0.0, 0.5, 1.0] {
                for mode in MODES {
                    met.is_ruled(&mut draw, block, epsilon, mode);
                }
            }
        }
    }
    met.stopped(100, &[1, 2, 3, 4]);
    met
}

#[test]
fn every_small_block_is_ruled() {
    let met = every_block(&[-1.0, 0.0, 1.0], &[(2, 2), (2, 3), (3, 2)]);
    met.tally.reached("every block of -1, 0, 1", &[0]);
}

/// Zeros of both signs, the least pivot and one step below it, infinity and NaN; and 49, of which more
/// than the least pivot is left in a column that is used: in (49, 0), (49, 0) it must not be used again.
#[test]
fn every_special_block_is_ruled() {
    let least = f64::EPSILON;
    let entries = [
        0.0,
        -0.0,
        least,
        -least.next_down(),
        49.0,
        f64::INFINITY,
        f64::NAN,
    ];
    let met = every_block(&entries, &[(1, 1), (1, 2), (2, 1), (2, 2)]);
    met.tally.reached("every block of special floats", &[0]);
}

#[test]
fn blocks_at_the_limits_are_ruled() {
    let mut draw = Draw::new(17);
    let mut met = Met::default();
    let mut both = |draw: &mut Draw, block: Block| {
        let epsilon = draw.epsilon();
        for mode in MODES {
            met.is_ruled(draw, block, epsilon, mode);
        }
    };
    for case in 0..60 {
        let few = draw.below(4);
        let (rows, columns) = [(1_024, few), (few, 1_024), (1_025, few), (few, 1_025)][case % 4];
        let samples = samples(&mut draw, rows, columns);
        both(&mut draw, Block::new(rows, columns, &samples));
    }
    for (rows, columns) in [(usize::MAX, 3), (3, usize::MAX), (1 << 32, 1 << 32)] {
        both(&mut draw, Block::new(rows, columns, &[]));
    }
    met.tally
        .reached("aca_partial_pivoting at its limits", &[0, 3, 7]);
}

/// A smooth block, which has no bad row; and one of rank 5, in which restart mode reads every row.
#[test]
fn the_largest_blocks_are_ruled() {
    let mut draw = Draw::fitting(18);
    let mut met = Met::default();
    for samples in [smooth(1_024, 1_024), levels(1_024)] {
        let block = Block::new(1_024, 1_024, &samples);
        for epsilon in [1e-6, draw.epsilon()] {
            for mode in MODES {
                met.is_ruled(&mut draw, block, epsilon, mode);
            }
        }
    }
    met.tally.reached("the largest blocks", &[0]);
}

/// Whether the old mode met no bad row: then restart mode must do the same. The old mode did not end for
/// want of a pivot, used no row and no column twice, and had no pivot that is NaN or infinite.
fn the_modes_agree(draw: &mut Draw, block: Block) -> bool {
    let old = Asked {
        block,
        epsilon: draw.epsilon(),
        mode: Mode::Old,
    };
    let restart = Asked {
        mode: Mode::Restart,
        ..old
    };
    let mut restarted = restart.lend(draw);
    let mut lent = restarted.clone();
    lent.lists[0].truncate(block.lesser());
    let report = old.call(&mut lent).expect("all lengths fit");
    if report.stop == Stop::Spent
        || !all_differ(&lent.lists[0][..report.rows_read])
        || !all_differ(&lent.lists[1][..report.rank])
        || lent.floats[1][..block.columns * report.rank]
            .iter()
            .any(|entry| entry.is_nan())
    {
        return false;
    }
    let same = restart.call(&mut restarted).expect("all lengths fit");
    // In words a NaN equals a NaN.
    assert_eq!(format!("{same:?}"), format!("{report:?}"));
    for (place, list) in lent.floats.iter().enumerate() {
        assert!(same_floats(&restarted.floats[place], list));
    }
    assert_eq!(restarted.lists[0][..block.lesser()], lent.lists[0]);
    assert_eq!(restarted.lists[1], lent.lists[1]);
    true
}

#[test]
fn without_a_bad_row_the_modes_agree() {
    let mut draw = Draw::fitting(38);
    let mut agreed = 0;
    for _ in 0..10_000 {
        let (rows, columns) = (draw.below(12), draw.below(12));
        let samples = samples(&mut draw, rows, columns);
        let block = Block::new(rows, columns, &samples);
        agreed += usize::from(the_modes_agree(&mut draw, block));
    }
    println!("the modes agree: {agreed}");
    assert!(agreed > 1_000, "{agreed}");
}

/// As docs/DECISIONS.md says: over the upper and the lower half of each float's bits.
fn checksum(list: &[f64]) -> u64 {
    list.iter()
        .flat_map(|float| [float.to_bits() >> 32, float.to_bits() & 0xffff_ffff])
        .fold(0, |sum, half| (sum * 65_599 + half + 1) % 4_294_967_291)
}

/// What `oracle/run large` prints of a block too large to store.
#[test]
fn the_large_block_is_answered_as_by_the_rust() {
    let samples = levels(1_024);
    let asked = Asked {
        block: Block::new(1_024, 1_024, &samples),
        epsilon: 1.0 / 1_048_576.0,
        mode: Mode::Old,
    };
    let mut lent = Lent {
        floats: [1_024 * 1_024, 1_024 * 1_024, 1_024, 1_024].map(|size| vec![0.0; size]),
        lists: [vec![0; 1_024], vec![0; 1_024]],
    };
    let report = asked.call(&mut lent).expect("all lengths fit");
    assert_eq!((report.rank, report.stop.number()), (5, 2));
    assert_eq!(report.estimate, 10_736_176.0);
    assert_eq!(report.smallest, 1.0);
    assert_eq!(lent.lists[0][..report.rows_read], [0, 1, 2, 3, 4, 9]);
    assert_eq!(lent.lists[1][..report.rank], [0, 1, 2, 3, 4]);
    assert_eq!(checksum(&lent.floats[0][..5 * 1_024]), 697_652_880);
    assert_eq!(checksum(&lent.floats[1][..5 * 1_024]), 768_311_761);
}
