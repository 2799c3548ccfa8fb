//! Draws the floats and the sizes of cases: a mixture, in which no sort of float is rare.

use crate::coefficients::{LONGEST, SHORTEST};
use crate::operators::true_nodes;
use crate::random::{Random, SMALL};

/// Zeros of both signs, subnormals, floats near the least pivot, huge floats, infinities and NaN.
const SPECIAL: [f64; 20] = [
    0.0,
    -0.0,
    f64::from_bits(1),
    -f64::from_bits(1),
    f64::from_bits(0x000f_ffff_ffff_ffff),
    f64::MIN_POSITIVE,
    -f64::MIN_POSITIVE,
    1e-17,
    f64::EPSILON,
    -1.0,
    1.0,
    1e154,
    -1e200,
    1e308,
    -1e308,
    f64::MAX,
    f64::MIN,
    f64::INFINITY,
    f64::NEG_INFINITY,
    f64::NAN,
];

const ALL_BITS: u64 = u64::MAX;
/// The bits of a subnormal: no exponent.
const SUBNORMAL_BITS: u64 = 0x800f_ffff_ffff_ffff;

/// One in so many sizes and orders is the largest; of the others most are small.
const ONE_IN: usize = 256;
const SOME: usize = 64;
const FEW: usize = 6;

/// Floats of one size, with signs that are drawn.
fn equal_sizes(random: &mut Random, count: usize) -> Vec<f64> {
    let size = random.spreads(1, 40)[0];
    random.picks(count, &[size, -size])
}

/// Floats of one sort, which is drawn too.
pub fn floats(random: &mut Random, count: usize) -> Vec<f64> {
    let mixed = [SMALL.as_slice(), &SMALL, &SMALL, &SPECIAL].concat();
    match random.below(10) {
        0 => random.picks(count, &SMALL),
        1 | 2 => random.units(count),
        3 => random.spreads(count, 40),
        4 => random.spreads(count, 1022),
        5 => random.picks(count, &SPECIAL),
        6 => random.picks(count, &mixed),
        7 => equal_sizes(random, count),
        8 => random.masked_bits(count, SUBNORMAL_BITS),
        _ => random.masked_bits(count, ALL_BITS),
    }
}

/// The same, with a finite float in place of each other one.
pub fn finite_floats(random: &mut Random, count: usize) -> Vec<f64> {
    let finite = |float: f64| match float.is_nan() {
        true => 0.0,
        false => float.clamp(f64::MIN, f64::MAX),
    };
    floats(random, count).into_iter().map(finite).collect()
}

/// A tolerance: one that a caller would give, or any float.
pub fn epsilon(random: &mut Random) -> f64 {
    match random.below(3) {
        0 => random.one_of(&[0.5, 1e-3, 1e-6, 1e-12, 0.0]),
        1 => random.one_of(&[0.75, 1.0, 2.0, 1e-170]),
        _ => floats(random, 1)[0],
    }
}

/// A cell's length that no call refuses: an end, one step inside it, or any between.
pub fn length(random: &mut Random) -> f64 {
    let ends = [
        SHORTEST,
        SHORTEST.next_up(),
        1.0,
        LONGEST.next_down(),
        LONGEST,
    ];
    match random.below(8) {
        0 => random.one_of(&ends),
        // From 2^-19 to 2^30, which is not reached.
        _ => 32.0 * random.spreads(1, 24)[0].abs(),
    }
}

/// Few, and now and then up to the most, or the most.
pub fn size(random: &mut Random, most: usize) -> usize {
    match random.below(ONE_IN) {
        0 => most,
        1 => random.below(most + 1),
        2..16 => random.below(most.min(SOME) + 1),
        _ => 1 + random.below(most.min(FEW)),
    }
}

pub fn dimension(random: &mut Random) -> usize {
    1 + random.below(3)
}

/// An order whose block has up to 64 nodes, and now and then any.
pub fn order(random: &mut Random, dimension: usize) -> usize {
    match random.below(ONE_IN) {
        0 => 16,
        1..8 => 1 + random.below(16),
        _ => 1 + random.below([16, 8, 4][dimension - 1]),
    }
}

/// Nodes and the polynomials there: the true ones of the order, or any floats.
pub fn nodes(random: &mut Random, order: usize) -> (Vec<f64>, Vec<f64>) {
    match random.below(4) {
        0 => true_nodes(order),
        _ => (floats(random, order), floats(random, order * order)),
    }
}
