//! The refusals of the cross approximation: every length, and every set of faults.

use bbfmm::Mode;

use super::held::{Asked, MODES, Met};
use crate::blocks::smooth;
use crate::draw::Draw;
use crate::rule::cross::Block;

/// Each buffer with no entry, with one too few and with one too many, among others that fit; and the
/// list of rows as long as the other mode has it.
#[test]
fn every_length_is_asked() {
    let mut draw = Draw::fitting(36);
    let mut met = Met::default();
    let samples = smooth(5, 3);
    for (mode, of_other_mode) in [(Mode::Old, 5), (Mode::Restart, 3)] {
        let asked = Asked {
            block: Block::new(5, 3, &samples),
            epsilon: 0.5,
            mode,
        };
        let fitting = asked.lend(&mut draw);
        for place in 0..4 {
            let right = fitting.floats[place].len();
            for length in [0, right - 1, right + 1] {
                let mut before = fitting.clone();
                before.floats[place].resize(length, 1.5);
                met.lent_is_ruled(asked, &before);
            }
        }
        for (place, other) in [(0, of_other_mode), (1, 5)] {
            let right = fitting.lists[place].len();
            for length in [0, right - 1, right + 1, other] {
                let mut before = fitting.clone();
                before.lists[place].resize(length, 7);
                met.lent_is_ruled(asked, &before);
            }
        }
    }
    met.tally.reached("every length", &[7]);
}

/// The samples, U, V, row, column and both lists can have a wrong length, and rows and columns can be
/// too many.
const FAULTS: usize = 9;

/// Asks with this set of faults, a bit a fault, in one mode.
fn set_is_ruled(draw: &mut Draw, met: &mut Met, set: usize, mode: Mode) {
    let has = |fault: usize| (set >> fault) & 1 == 1;
    let mut samples = draw.floats(6);
    samples.truncate(6 - usize::from(has(0)));
    let fitting = Asked {
        block: Block::new(3, 2, &samples),
        epsilon: 0.5,
        mode,
    };
    let mut before = fitting.lend(draw);
    for (fault, list) in before.floats.iter_mut().enumerate() {
        list.truncate(list.len() - usize::from(has(1 + fault)));
    }
    for (fault, list) in before.lists.iter_mut().enumerate() {
        list.truncate(list.len() - usize::from(has(5 + fault)));
    }
    // Where a block is too large no buffer fits it, and its own number comes first.
    let rows = if has(7) { 1_025 } else { 3 };
    let columns = if has(8) { 1_025 } else { 2 };
    let asked = Asked {
        block: Block::new(rows, columns, &samples),
        ..fitting
    };
    met.lent_is_ruled(asked, &before);
    let lowest = match (has(7) || has(8), set) {
        (true, _) => Some(3),
        (false, 0) => None,
        (false, _) => Some(7),
    };
    let told = asked.rule(&before).err();
    assert_eq!(told, lowest, "the rule's number for set {set}");
}

#[test]
fn of_several_faults_the_lowest_is_told() {
    let mut draw = Draw::fitting(37);
    let mut met = Met::default();
    for set in 0..1 << FAULTS {
        for mode in MODES {
            set_is_ruled(&mut draw, &mut met, set, mode);
        }
    }
    met.tally.reached("every set of faults", &[0, 3, 7]);
}
