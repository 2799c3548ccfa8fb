//! Builds the cases that ask for target and source points.

use crate::floats::{Header, Stream, shown};
use crate::random::Random;
use oracle::chebyshev::reach;

const TARGETS: u8 = 5;
const SOURCES: u8 = 6;

/// The shortest and the longest length that the calls take, and some between.
const LENGTHS: [f64; 5] = [
    1.0 / 1_048_576.0,
    1_073_741_824.0,
    1.0,
    0.1,
    12_345.678_901_234_567,
];

/// Zeros of both signs, subnormals, huge floats, infinities and a NaN in place of nodes.
const SPECIAL: [f64; 10] = [
    0.0,
    -0.0,
    f64::from_bits(1),
    -f64::MIN_POSITIVE,
    f64::MAX,
    -f64::MAX,
    f64::INFINITY,
    -f64::INFINITY,
    f64::NAN,
    1.0,
];

pub fn ask_targets(stream: &mut Stream, dimension: usize, length: f64, nodes: &[f64]) {
    let order = nodes.len();
    let header = Header {
        kind: TARGETS,
        order,
        dimension,
        ..Header::default()
    };
    let points = shown(&reach::target_points(dimension, length, nodes));
    let line = format!("targets {dimension} {order}:{points}");
    stream.case(header, &[&[length], nodes], &line);
}

pub fn ask_sources(
    stream: &mut Stream,
    dimension: usize,
    length: f64,
    reference: usize,
    nodes: &[f64],
) {
    let order = nodes.len();
    let header = Header {
        kind: SOURCES,
        order,
        dimension,
        rows: reference,
        ..Header::default()
    };
    let points = shown(&reach::source_points(dimension, length, reference, nodes));
    let line = format!("sources {dimension} {order} {reference}:{points}");
    stream.case(header, &[&[length], nodes], &line);
}

/// The blocks of every order, of each length, of every reference, and of floats that are no nodes.
pub fn ask_all(stream: &mut Stream) {
    let mut random = Random::new(3);
    for (dimension, references) in [(1, 2), (2, 7), (3, 16)] {
        for order in 1..=16 {
            ask_targets(stream, dimension, 1.0, &reach::nodes(order));
            ask_sources(
                stream,
                dimension,
                1.0,
                order % references,
                &reach::nodes(order),
            );
        }
        for length in LENGTHS {
            ask_targets(stream, dimension, length, &random.spreads(3, 40));
            ask_sources(stream, dimension, length, 1, &random.spreads(3, 40));
        }
        for reference in 0..references {
            ask_sources(stream, dimension, 0.7, reference, &random.units(2));
        }
        ask_targets(stream, dimension, 3.0, &SPECIAL);
        ask_sources(stream, dimension, 3.0, 1, &SPECIAL);
    }
}
