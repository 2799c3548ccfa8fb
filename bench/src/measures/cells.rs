//! Points scaled into their cell, coefficients and curvature at reference coordinates, and scaling and coefficients in turn, which are
//! one call of the text. The cell lies about the origin and has length 2, so that scaling leaves the points as they are, call after
//! call, and they are reference coordinates as they come.

use super::{Measure, SHAPES, floats, node_polynomials};
use crate::chebyshev::get_approximation_coefficients;
use faer::MatRef;
use ours::{Curvatures, Gradients};
use std::hint::black_box;

const LENGTH: f64 = 2.0;
const CENTRE: [f64; 3] = [0.0; 3];

pub const POINTS: [usize; 3] = [1, 64, 4096];
/// More of them, for calls that are refused: they only test the points.
const MANY: [usize; 3] = [16, 256, 4096];

/// Products along the axes, and S of each axis; and the same again for each axis of a gradient.
pub fn floor(dimension: usize, order: usize, rows: usize, with_gradients: bool) -> usize {
    let nodes = order.pow(dimension as u32);
    let values = nodes * rows * (dimension - 1).max(1) + dimension * order * order * rows;
    if with_gradients {
        values + dimension * nodes * rows * (dimension - 1).max(1) + dimension * order * order * rows
    } else {
        values
    }
}

/// What one call is over: a dimension, an order and how many points.
#[derive(Clone, Copy)]
struct Shape {
    dimension: usize,
    order: usize,
    rows: usize,
}

impl Shape {
    fn of(size: usize) -> Shape {
        let (dimension, order) = SHAPES[size];
        Shape { dimension, order, rows: POINTS[size] }
    }

    fn in_words(self) -> String {
        let Shape { dimension, order, rows } = self;
        format!("order {order}, dimension {dimension}, {rows} points")
    }

    fn floor(self, with_gradients: bool) -> usize {
        floor(self.dimension, self.order, self.rows, with_gradients)
    }
}

fn scale(dimension: usize, points: &mut [f64]) -> Result<(), ours::Refusal> {
    ours::scale_points(dimension, LENGTH, &CENTRE[..dimension], black_box(points))
}

/// Points alone: a difference and a quotient each, counted as one.
fn scaling(dimension: usize, rows: usize) -> Measure {
    let mut points = floats(dimension * rows);
    Measure {
        given: format!("dimension {dimension}, {rows} points"),
        floor: dimension * rows,
        ours: Box::new(move || scale(dimension, &mut points).expect("points in the cell")),
        text: None,
    }
}

pub fn scale_points(size: usize) -> Measure {
    scaling(SHAPES[size].0, POINTS[size])
}

/// Our call for coefficients, over buffers that it keeps.
fn asked(shape: Shape, with_gradients: bool) -> impl FnMut(&[f64]) {
    let Shape { dimension, order, rows } = shape;
    let nodes = order.pow(dimension as u32);
    let (_, polynomials) = node_polynomials(order);
    let (mut values, mut factors) = (vec![0.0; nodes * rows], vec![0.0; dimension * order * rows]);
    let (mut gradients, mut slopes) = (vec![0.0; dimension * nodes * rows], vec![0.0; dimension * order * rows]);
    move |coordinates| {
        let also = Gradients { length: LENGTH, gradients: &mut gradients, slopes: &mut slopes };
        let also = with_gradients.then_some(also);
        let coordinates = black_box(coordinates);
        ours::get_approximation_coefficients(dimension, order, &polynomials, coordinates, &mut values, &mut factors, also)
            .expect("lengths")
    }
}

/// The second call alone. The text has none without scaling.
fn coefficients(size: usize, with_gradients: bool) -> Measure {
    let shape = Shape::of(size);
    let coordinates = floats(shape.dimension * shape.rows);
    let mut ask = asked(shape, with_gradients);
    Measure {
        given: shape.in_words(),
        floor: shape.floor(with_gradients),
        ours: Box::new(move || ask(&coordinates)),
        text: None,
    }
}

pub fn values(size: usize) -> Measure {
    coefficients(size, false)
}

pub fn gradients(size: usize) -> Measure {
    coefficients(size, true)
}

/// S, S' and S'' of each axis, and the products for each pair of axes. The text has no such call.
pub fn curvature(size: usize) -> Measure {
    let shape = Shape::of(size);
    let Shape { dimension, order, rows } = shape;
    let columns = order.pow(dimension as u32) * dimension * (dimension + 1) / 2;
    let (coordinates, (_, polynomials)) = (floats(dimension * rows), node_polynomials(order));
    let mut curvatures = vec![0.0; columns * rows];
    let [mut factors, mut slopes, mut bends] = [0.0; 3].map(|zero| vec![zero; dimension * order * rows]);
    let mut room = vec![0.0; 3 * order * rows];
    Measure {
        given: shape.in_words(),
        floor: columns * rows * (dimension - 1).max(1) + 3 * dimension * order * order * rows,
        ours: Box::new(move || {
            let mut lent = Curvatures {
                curvatures: &mut curvatures,
                factors: &mut factors,
                slopes: &mut slopes,
                bends: &mut bends,
                room: &mut room,
            };
            let coordinates = black_box(&coordinates);
            ours::get_curvature_coefficients(dimension, order, LENGTH, &polynomials, coordinates, &mut lent).expect("lengths")
        }),
        text: None,
    }
}

fn text(shape: Shape, with_gradients: bool) -> Box<dyn FnMut()> {
    let Shape { dimension, order, rows } = shape;
    let (points, (_, polynomials)) = (floats(dimension * rows), node_polynomials(order));
    let mut points = MatRef::from_column_major_slice(&points, rows, dimension).to_owned();
    let polynomials = MatRef::from_column_major_slice(&polynomials, order, order).to_owned();
    let centre = CENTRE[..dimension].to_vec();
    Box::new(move || {
        drop(black_box(get_approximation_coefficients(
            order,
            black_box(&mut points),
            &centre,
            &LENGTH,
            &polynomials,
            &dimension,
            with_gradients,
        )))
    })
}

/// The two in turn: what one call did before they were two, and what the text's one call does.
fn pair(size: usize, with_gradients: bool) -> Measure {
    let shape = Shape::of(size);
    let mut points = floats(shape.dimension * shape.rows);
    let mut ask = asked(shape, with_gradients);
    Measure {
        given: shape.in_words(),
        floor: shape.dimension * shape.rows + shape.floor(with_gradients),
        ours: Box::new(move || {
            scale(shape.dimension, &mut points).expect("points in the cell");
            ask(&points);
        }),
        text: Some(text(shape, with_gradients)),
    }
}

pub fn values_of_points(size: usize) -> Measure {
    pair(size, false)
}

pub fn gradients_of_points(size: usize) -> Measure {
    pair(size, true)
}

/// Points of which the very last coordinate is at fault. So one call makes every test of the points but the last, and the other
/// that too. The text refuses nothing.
fn refused(size: usize, last: f64) -> Measure {
    let (dimension, rows) = (SHAPES[size].0, MANY[size]);
    let mut points = floats(dimension * rows);
    points[dimension * rows - 1] = last;
    Measure {
        ours: Box::new(move || {
            black_box(scale(dimension, &mut points).expect_err("a fault"));
        }),
        ..scaling(dimension, rows)
    }
}

pub fn not_finite(size: usize) -> Measure {
    refused(size, f64::INFINITY)
}

pub fn out_of_cell(size: usize) -> Measure {
    refused(size, 2.0)
}
