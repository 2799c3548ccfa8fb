//! Checks that the coefficients of a cell are made with no rounding at all.
//!
//! Every operation of the Rust is done once more in exact numbers, which refuse any that rounds. So
//! the answer does not depend on the order in which a product adds, nor on fusing: it is the one that
//! the Rust gives with the real matrix crate too, and not only with our stand-in for it. Only the
//! sign of a zero is left open.

use crate::exact::Exact;
use oracle::chebyshev::reach::{Cell, Coefficients};

/// What the nodes along one axis count for at one point, and how fast that grows.
struct Axis {
    factors: Vec<Exact>,
    slopes: Vec<Exact>,
}

/// A number of nodes, as the Rust divides by it.
fn whole(number: usize) -> Exact {
    Exact::of(number as f64)
}

/// The polynomials below an order at a point, and their derivatives there.
fn polynomials(order: usize, x: Exact) -> (Vec<Exact>, Vec<Exact>) {
    let mut values = vec![Exact::ONE, x];
    let mut slopes = vec![Exact::ZERO, Exact::ONE];
    for j in 2..order {
        let twice = Exact::TWO * x;
        values.push(twice * values[j - 1] - values[j - 2]);
        slopes.push(Exact::TWO * values[j - 1] + twice * slopes[j - 1] - slopes[j - 2]);
    }
    values.truncate(order);
    slopes.truncate(order);
    (values, slopes)
}

/// The sum over the polynomials at a point, each times its value at a node.
fn product(cell: &Cell, at_point: &[Exact], node: usize) -> Exact {
    let terms: Vec<Exact> = at_point
        .iter()
        .enumerate()
        .map(|(k, &t)| t * Exact::of(cell.node_polynomials[node + k * cell.order]))
        .collect();
    Exact::sum(&terms)
}

/// The nodes of an axis, for a point whose scaled coordinate there is `x`.
fn axis(cell: &Cell, x: Exact) -> Axis {
    let (values, slopes) = polynomials(cell.order, x);
    let order = whole(cell.order);
    let factor = |node| (product(cell, &values, node) * Exact::TWO - Exact::ONE) / order;
    let slope = |node| {
        product(cell, &slopes, node) * (Exact::TWO / order) * (Exact::TWO / Exact::of(cell.length))
    };
    Axis {
        factors: (0..cell.order).map(factor).collect(),
        slopes: (0..cell.order).map(slope).collect(),
    }
}

/// The node's number along each axis, the last of which varies fastest.
fn places(cell: &Cell, mut node: usize) -> Vec<usize> {
    let mut places = vec![0; cell.dimension];
    for place in places.iter_mut().rev() {
        *place = node % cell.order;
        node /= cell.order;
    }
    places
}

fn value(axes: &[Axis], places: &[usize]) -> Exact {
    axes.iter()
        .zip(places)
        .fold(Exact::ONE, |all, (axis, &place)| all * axis.factors[place])
}

/// The slope along the axis `along` comes first, then the factors of the other axes.
fn gradient(axes: &[Axis], places: &[usize], along: usize) -> Exact {
    (0..axes.len())
        .filter(|&axis| axis != along)
        .fold(axes[along].slopes[places[along]], |all, axis| {
            all * axes[axis].factors[places[axis]]
        })
}

/// One point's row of a matrix whose columns have a place for each point.
fn row(matrix: &[f64], row: usize, rows: usize) -> Vec<Exact> {
    let entries = matrix.iter().skip(row).step_by(rows);
    entries.map(|&float| Exact::of(float)).collect()
}

fn scaled(cell: &Cell, point: usize) -> Vec<Exact> {
    let half = Exact::of(cell.length) * Exact::of(0.5);
    row(&cell.points, point, cell.rows())
        .into_iter()
        .zip(&cell.centre)
        .map(|(coordinate, &middle)| (coordinate - Exact::of(middle)) / half)
        .collect()
}

/// Panics where an operation would round, or where the answer is not the exact one.
pub fn check(cell: &Cell, answer: &Coefficients) {
    let nodes: Vec<Vec<usize>> = (0..cell.order.pow(cell.dimension as u32))
        .map(|node| places(cell, node))
        .collect();
    for point in 0..cell.rows() {
        let coordinates = scaled(cell, point);
        let axes: Vec<Axis> = coordinates.iter().map(|&x| axis(cell, x)).collect();
        let values: Vec<Exact> = nodes.iter().map(|node| value(&axes, node)).collect();
        assert_eq!(row(&answer.points, point, cell.rows()), coordinates);
        assert_eq!(row(&answer.values, point, cell.rows()), values);
        if let Some(gradients) = &answer.gradients {
            let wanted: Vec<Exact> = (0..cell.dimension)
                .flat_map(|along| nodes.iter().map(move |node| (along, node)))
                .map(|(along, node)| gradient(&axes, node, along))
                .collect();
            assert_eq!(row(gradients, point, cell.rows()), wanted);
        }
    }
}
