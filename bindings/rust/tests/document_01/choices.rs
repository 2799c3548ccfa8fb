//! Masked argmax and rank cutoff.

use bbfmm::{argmax_masked, calculate_singular_values_cutoff};

use crate::draw::Draw;
use crate::held::Tally;
use crate::rule::choices as rule;

/// Few, or as many as may be, or one more.
fn count(draw: &mut Draw) -> usize {
    match draw.below(60) {
        0 => 1_024,
        1 => 1_025,
        2 => 0,
        _ => draw.below(20),
    }
}

/// Bytes of 0 and 1, and now and then another.
fn mask(draw: &mut Draw, length: usize) -> Vec<u8> {
    let mut mask: Vec<u8> = (0..length).map(|_| u8::from(!draw.one_in(3))).collect();
    if length > 0 && draw.one_in(20) {
        mask[draw.below(length)] = draw.one_of(&[2, 3, 128, 255]);
    }
    mask
}

#[test]
fn argmax_is_ruled() {
    let mut draw = Draw::new(14);
    let mut tally = Tally::default();
    for _ in 0..40_000 {
        let count = count(&mut draw);
        let entries = draw.floats(count);
        let length = draw.length(count);
        let mask = mask(&mut draw, length);
        let answer = argmax_masked(&entries, &mask);
        let ruled = rule::argmax_masked(&entries, &mask);
        if let Some(expected) = tally.number(&(&entries, &mask), &answer, ruled) {
            assert_eq!(answer, Ok(expected), "{entries:?} {mask:?}");
        }
    }
    tally.reached("argmax_masked", &[0, 3, 7, 10]);
}

#[test]
fn cutoff_is_ruled() {
    let mut draw = Draw::new(15);
    let mut tally = Tally::default();
    for _ in 0..20_000 {
        let count = count(&mut draw);
        let mut values = draw.floats(count);
        if draw.one_in(2) {
            values.sort_by(|left, right| right.abs().total_cmp(&left.abs()));
        }
        let epsilon = draw.epsilon();
        let answer = calculate_singular_values_cutoff(&values, epsilon);
        let ruled = rule::cutoff(&values, epsilon);
        if let Some(expected) = tally.number(&(&values, epsilon), &answer, ruled) {
            assert_eq!(answer, Ok(expected), "{values:?} {epsilon}");
        }
    }
    tally.reached("calculate_singular_values_cutoff", &[0, 3]);
}
