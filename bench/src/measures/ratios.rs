//! Graham's ratio at points of a cell, from three gases. The text has no such call.

use super::cells::{self, POINTS};
use super::{Measure, SIZES, floats, node_polynomials};
use ours::{Cell, Gases};
use std::hint::black_box;

/// A dimension and an order for each size. The points are as many as for the coefficients.
const SHAPES: [(usize, usize); SIZES] = [(1, 2), (3, 8), (3, 16)];

/// A field about a level, with a swing of so much to both sides.
fn field(level: f64, swing: f64, nodes: usize) -> Vec<f64> {
    floats(nodes).into_iter().map(|unit| level + swing * unit).collect()
}

/// The coefficients; and of each point three products with its row of values, and the deficiency and the ratio.
///
/// The cell lies about the origin and has length 2, so that scaling leaves the points as they are, call after call. The air is an
/// old goaf's, so that every point has a ratio and no step is left out.
pub fn graham_ratios(size: usize) -> Measure {
    let ((dimension, order), rows) = (SHAPES[size], POINTS[size]);
    let cell = Cell { dimension, order, length: 2.0, rows };
    let nodes = order.pow(dimension as u32);
    let mut points = floats(dimension * rows);
    let (_, polynomials) = node_polynomials(order);
    let [carbon_monoxide, nitrogen, oxygen] = [(0.006, 1e-3), (86.0, 0.1), (9.79, 0.1)].map(|(level, swing)| field(level, swing, nodes));
    let centre = vec![0.0; dimension];
    let (mut values, mut factors) = (vec![0.0; nodes * rows], vec![0.0; dimension * order * rows]);
    let (mut answers, mut ratios) = (vec![0; rows], vec![0.0; rows]);
    Measure {
        given: format!("order {order}, dimension {dimension}, {rows} points"),
        floor: cells::floor(dimension, order, rows, false) + 3 * nodes * rows + 4 * rows,
        ours: Box::new(move || {
            let gases = Gases { carbon_monoxide: &carbon_monoxide, nitrogen: &nitrogen, oxygen: &oxygen };
            let (points, floor) = (black_box(&mut points), black_box(0.1));
            ours::graham_ratios(
                cell, floor, &centre, &polynomials, points, gases, &mut values, &mut factors, &mut answers, &mut ratios,
            )
            .expect("lengths")
        }),
        text: None,
    }
}
