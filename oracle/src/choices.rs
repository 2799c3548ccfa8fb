//! Builds the cases that ask for the largest entry under a mask, and where singular values are cut off.

use crate::floats::{Header, Stream};
use crate::random::Random;
use oracle::aca::reach;

const ARGMAX: u8 = 8;
const CUTOFF: u8 = 9;

/// Zeros of both signs, subnormals, huge floats, infinities, NaN, and sizes that are equal.
const SPECIAL: [f64; 13] = [
    0.0,
    -0.0,
    f64::from_bits(1),
    -f64::MIN_POSITIVE,
    1.0,
    -1.0,
    3.0,
    -3.0,
    f64::MAX,
    -f64::MAX,
    f64::INFINITY,
    -f64::INFINITY,
    f64::NAN,
];

/// Tolerances that a caller may give, and those that no caller should.
const EPSILONS: [f64; 12] = [
    0.0,
    -0.0,
    1e-6,
    0.5,
    0.75,
    1.0,
    2.0,
    -0.5,
    1e200,
    f64::INFINITY,
    -f64::INFINITY,
    f64::NAN,
];

pub fn ask_argmax(stream: &mut Stream, entries: &[f64], mask: &[u8]) {
    let header = Header {
        kind: ARGMAX,
        rows: entries.len(),
        ..Header::default()
    };
    let place = reach::argmax(entries, mask);
    let line = format!("argmax {}: {place}", entries.len());
    stream.case(header, &[entries], &line);
    stream.input.extend(mask);
}

pub fn ask_cutoff(stream: &mut Stream, values: &[f64], epsilon: f64) {
    let header = Header {
        kind: CUTOFF,
        rows: values.len(),
        ..Header::default()
    };
    let place = reach::cutoff(values, epsilon);
    let line = format!("cutoff {}: {place}", values.len());
    stream.case(header, &[&[epsilon], values], &line);
}

/// A mask that lets about half of the entries count.
fn mask(random: &mut Random, count: usize) -> Vec<u8> {
    let draws = random.units(count).into_iter();
    draws.map(|unit| u8::from(unit > 0.0)).collect()
}

/// Short lists of special floats with every mask, and longer ones with masks that are drawn.
fn largest(stream: &mut Stream, random: &mut Random) {
    ask_argmax(stream, &[], &[]);
    for bits in 0..8u8 {
        let bytes = [bits & 1, bits >> 1 & 1, bits >> 2];
        for entries in [[1.0, -3.0, 3.0], [0.0, -0.0, f64::NAN], [2.0, 2.0, -2.0]] {
            ask_argmax(stream, &entries, &bytes);
        }
    }
    for count in [1, 2, 5, 13, 40, 1023, 1024] {
        for _ in 0..6 {
            let bytes = mask(random, count);
            ask_argmax(stream, &random.picks(count, &SPECIAL), &bytes);
            ask_argmax(stream, &random.spreads(count, 60), &bytes);
        }
    }
}

/// Lists that fall as singular values do, lists of special floats, and every tolerance.
fn cutoffs(stream: &mut Stream, random: &mut Random) {
    for epsilon in EPSILONS {
        for values in [&[4.0, 3.0][..], &[1.0; 4], &[0.0, 0.0], &[5.0]] {
            ask_cutoff(stream, values, epsilon);
        }
        for count in [1, 3, 16, 1024] {
            let mut values = random.spreads(count, 40);
            values.sort_by(|a, b| b.abs().total_cmp(&a.abs()));
            ask_cutoff(stream, &values, epsilon);
            ask_cutoff(stream, &random.picks(count, &SPECIAL), epsilon);
        }
    }
}

pub fn ask_all(stream: &mut Stream) {
    let mut random = Random::new(5);
    largest(stream, &mut random);
    cutoffs(stream, &mut random);
}
