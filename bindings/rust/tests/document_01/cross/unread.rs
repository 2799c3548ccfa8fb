//! Nothing outside the listed rows and columns counts (E9): a block is run, all else in it is overwritten, and it is run again.

use bbfmm::Report;

use super::held::{Asked, Lent, MODES};
use crate::blocks::{levels, samples, smooth, spoilt};
use crate::draw::Draw;
use crate::held::same_floats;
use crate::rule::cross::Block;

/// NaN, infinities, a drawn number, or any float at all.
fn anything(draw: &mut Draw) -> f64 {
    let number = 1_000.0 * draw.unit();
    let any = f64::from_bits(draw.bits());
    draw.one_of(&[f64::NAN, f64::INFINITY, f64::NEG_INFINITY, number, any])
}

/// The block's samples, with those overwritten that stand in no listed row or column; and how many.
fn overwritten(draw: &mut Draw, block: Block, rows: &[u16], columns: &[u16]) -> (Vec<f64>, usize) {
    let mut is_row = vec![false; block.rows];
    let mut is_column = vec![false; block.columns];
    for &row in rows {
        is_row[usize::from(row)] = true;
    }
    for &column in columns {
        is_column[usize::from(column)] = true;
    }
    let mut samples = block.samples.to_vec();
    let mut count = 0;
    for (place, entry) in samples.iter_mut().enumerate() {
        if !is_row[place % block.rows] && !is_column[place / block.rows] {
            *entry = anything(draw);
            count += 1;
        }
    }
    (samples, count)
}

fn called(asked: Asked, before: &Lent) -> (Report, Lent) {
    let mut after = before.clone();
    let report = asked.call(&mut after).expect("all that is lent fits");
    (report, after)
}

fn are_same((report, lent): &(Report, Lent), (other, others): &(Report, Lent)) -> bool {
    let numbers = |r: &Report| [r.estimate, r.smallest];
    let mut floats = lent.floats.iter().zip(&others.floats);
    (report.rank, report.stop, report.rows_read) == (other.rank, other.stop, other.rows_read)
        && same_floats(&numbers(report), &numbers(other))
        && floats.all(|(left, right)| same_floats(left, right))
        && lent.lists == others.lists
}

/// In both modes. Answers how many entries were overwritten.
fn is_unread(draw: &mut Draw, block: Block, epsilon: f64) -> usize {
    let mut count = 0;
    for mode in MODES {
        let asked = Asked {
            block,
            epsilon,
            mode,
        };
        let before = asked.lend(draw);
        let first = called(asked, &before);
        let lists = &first.1.lists;
        let (rows, columns) = (&lists[0][..first.0.rows_read], &lists[1][..first.0.rank]);
        let (samples, outside) = overwritten(draw, block, rows, columns);
        let again = Asked {
            block: Block::new(block.rows, block.columns, &samples),
            ..asked
        };
        let case = (block.rows, block.columns, block.samples, epsilon, mode);
        assert!(are_same(&first, &called(again, &before)), "{case:?}");
        count += outside;
    }
    count
}

#[test]
fn nothing_outside_counts() {
    let mut draw = Draw::fitting(90);
    let mut count = 0;
    for case in 0..12_000 {
        let most = draw.one_of(&[2, 4, 9, 24]);
        let (rows, columns) = (1 + draw.below(most), 1 + draw.below(most));
        let fill = [samples, spoilt][case % 2];
        let samples = fill(&mut draw, rows, columns);
        let epsilon = draw.epsilon();
        count += is_unread(&mut draw, Block::new(rows, columns, &samples), epsilon);
    }
    assert!(count > 100_000, "only {count} entries were outside");
}

#[test]
fn nothing_outside_counts_in_the_largest_blocks() {
    let mut draw = Draw::fitting(91);
    for samples in [smooth(1_024, 1_024), levels(1_024)] {
        let block = Block::new(1_024, 1_024, &samples);
        is_unread(&mut draw, block, 1e-6);
    }
}
