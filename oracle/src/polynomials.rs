//! Builds the cases that ask for nodes and for polynomials at points.

use crate::floats::{Header, Stream, shown};
use crate::random::Random;
use oracle::chebyshev::reach;

const NODES: u8 = 1;
const POLYNOMIALS: u8 = 2;
const ORDERS: std::ops::RangeInclusive<usize> = 1..=16;

/// The most points that a call takes.
pub const MOST_POINTS: usize = 4096;

/// Points at which a float rule may go another way: zeros, ends, subnormals, overflow, no number.
const SPECIAL: [f64; 19] = [
    0.0,
    -0.0,
    1.0,
    -1.0,
    0.5,
    -0.5,
    f64::from_bits(1),
    -f64::from_bits(1),
    f64::from_bits(0x000f_ffff_ffff_ffff),
    f64::MIN_POSITIVE,
    -f64::MIN_POSITIVE,
    1e154,
    1e308,
    -1e308,
    f64::MAX,
    f64::MIN,
    f64::INFINITY,
    f64::NEG_INFINITY,
    f64::NAN,
];

pub fn ask_nodes(stream: &mut Stream, order: usize) {
    let header = Header {
        kind: NODES,
        order,
        ..Header::default()
    };
    let line = format!("nodes {order}:{}", shown(&reach::nodes(order)));
    stream.case(header, &[], &line);
}

pub fn ask_polynomials(stream: &mut Stream, order: usize, with_derivatives: bool, points: &[f64]) {
    let header = Header {
        kind: POLYNOMIALS,
        order,
        flag: with_derivatives,
        rows: points.len(),
        ..Header::default()
    };
    let (values, derivatives) = reach::polynomials(order, points, with_derivatives);
    let mut line = format!("polynomials {order} {}:{}", points.len(), shown(&values));
    if let Some(derivatives) = derivatives {
        line.push_str(&format!(" |{}", shown(&derivatives)));
    }
    stream.case(header, &[points], &line);
}

/// Few points, so that their polynomials are written out, then the nodes and harder points.
fn points(random: &mut Random, order: usize) -> Vec<Vec<f64>> {
    let mut sets: Vec<Vec<f64>> = [0, 1, 2, 5].map(|count| random.units(count)).into();
    sets.push(reach::nodes(order));
    sets.push(SPECIAL.to_vec());
    // An exponent of any size soon overflows; one near that of 1 goes through every order.
    sets.push(random.spreads(8, 1022));
    sets.push(random.spreads(8, 40));
    sets
}

/// All nodes come first, then the polynomials, by order.
pub fn ask_all(stream: &mut Stream) {
    let mut random = Random::new(1);
    for order in ORDERS {
        ask_nodes(stream, order);
    }
    for order in ORDERS {
        for with_derivatives in [false, true] {
            for points in points(&mut random, order) {
                ask_polynomials(stream, order, with_derivatives, &points);
            }
        }
    }
    for (order, with_derivatives) in [(3, false), (16, true)] {
        let points = random.units(MOST_POINTS);
        ask_polynomials(stream, order, with_derivatives, &points);
    }
}
