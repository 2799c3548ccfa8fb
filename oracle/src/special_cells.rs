//! Builds the cells of special floats, among those that ask for coefficients.

use crate::coefficients::{LONGEST, SHORTEST, ask, bring_in};
use crate::floats::Stream;
use crate::operators::{special_rows, true_nodes};
use oracle::chebyshev::reach::Cell;

const INFINITY: f64 = f64::INFINITY;
const LEAST: f64 = f64::from_bits(1);
const LARGEST_SUBNORMAL: f64 = f64::from_bits(0x000f_ffff_ffff_ffff);

/// Coordinates at which a float rule may go another way: zeros, subnormals, overflow.
const COORDINATES: [f64; 14] = [
    0.0,
    -0.0,
    1.0,
    -1.0,
    LEAST,
    -LEAST,
    LARGEST_SUBNORMAL,
    f64::MIN_POSITIVE,
    -f64::MIN_POSITIVE,
    1e154,
    1e300,
    -1e308,
    f64::MAX,
    -f64::MAX,
];

/// Zeros of both signs, a subnormal, a huge float, infinities and a NaN in place of a polynomial.
const POLYNOMIALS: [f64; 7] = [0.0, -0.0, LEAST, f64::MAX, INFINITY, -INFINITY, f64::NAN];

/// The special coordinates on every axis, each axis from another start, about special centres. Those
/// out of the cell are brought into it.
fn points(stream: &mut Stream) {
    let centres = [
        [0.0, -0.0, 0.0],
        [-0.0, LEAST, -f64::MIN_POSITIVE],
        [f64::MAX, -1e308, -f64::MAX],
    ];
    for dimension in 1..=3 {
        for centre in centres {
            // Order 1 has no T1, and order 2 no recurrence. A long cell holds more of the coordinates.
            for (order, length) in [(1, 3.7), (2, SHORTEST), (3, LONGEST), (5, SHORTEST)] {
                let coordinates = (0..dimension).flat_map(|axis| {
                    let mut coordinates = COORDINATES;
                    coordinates.rotate_left(3 * axis);
                    coordinates
                });
                let mut points: Vec<f64> = coordinates.collect();
                bring_in(length, &centre[..dimension], &mut points);
                let cell = Cell {
                    dimension,
                    order,
                    with_gradients: true,
                    length,
                    centre: centre[..dimension].to_vec(),
                    node_polynomials: true_nodes(order).1,
                    points,
                };
                ask(stream, &cell);
            }
        }
    }
}

/// Special floats among the polynomials: alone, beside whole numbers, and a row of each sort.
fn polynomials(stream: &mut Stream) {
    let mut sets: Vec<(usize, usize, Vec<f64>)> = Vec::new();
    for special in POLYNOMIALS {
        sets.push((3, 1, vec![special]));
        sets.push((2, 2, vec![special, 1.0, -1.0, -0.0]));
    }
    for dimension in 1..=3 {
        sets.push((dimension, 4, special_rows()));
    }
    for (dimension, order, node_polynomials) in sets {
        let centre = [1.0, -2.0, 0.5];
        let points = [1.5, 1.0, -1.5, -2.0, 0.75, 0.5];
        let cell = Cell {
            dimension,
            order,
            with_gradients: true,
            length: 2.0,
            centre: centre[..dimension].to_vec(),
            node_polynomials,
            points: points[..2 * dimension].to_vec(),
        };
        ask(stream, &cell);
    }
}

/// Special points and centres come first, then special polynomials.
pub fn ask_all(stream: &mut Stream) {
    points(stream);
    polynomials(stream);
}
