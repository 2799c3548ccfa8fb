//! The one call that scaled points and found their coefficients, as document 01 and request E1 have it.
//! Request E7 made two calls of it. The rule stays as what the two in turn are held to, and the ratios,
//! which still refuse as one call.

use bbfmm::Cell;

use super::chebyshev::{derivatives, polynomials};
use super::{
    bad_cell, bad_dimension, bad_length, bad_order, dot, indices, nodes_of_block, refusal,
};

/// What is lent: points, values, gradients, factors, slopes.
pub type Lent = [Vec<f64>; 5];

fn check(
    cell: Cell,
    with_gradients: bool,
    centre: &[f64],
    node_polynomials: &[f64],
    lent: &Lent,
) -> Result<(), u8> {
    let Cell {
        dimension,
        order,
        length,
        rows,
    } = cell;
    let nodes = nodes_of_block(dimension, order);
    let wanted = usize::from(with_gradients);
    let not_finite = |list: &[f64]| list.iter().any(|coordinate| !coordinate.is_finite());
    refusal(&[
        (11, is_outside(cell, centre, &lent[0])),
        (9, not_finite(centre) || not_finite(&lent[0])),
        bad_cell(length),
        bad_length(centre, &[dimension]),
        bad_length(node_polynomials, &[order, order]),
        bad_length(&lent[0], &[rows, dimension]),
        bad_length(&lent[1], &[rows, nodes]),
        bad_length(&lent[2], &[wanted, rows, nodes, dimension]),
        bad_length(&lent[3], &[rows, dimension, order]),
        bad_length(&lent[4], &[wanted, rows, dimension, order]),
        (3, rows > 4096),
        bad_order(order),
        bad_dimension(dimension),
    ])
}

/// Where a point lies in the cell, on one axis: (point - centre)/(length*0.5).
fn coordinate(length: f64, centre: f64, point: f64) -> f64 {
    (point - centre) / (length * 0.5)
}

/// A reference coordinate is above 1 + 2^-20 in size. Lists that do not fit are refused before.
fn is_outside(cell: Cell, centre: &[f64], points: &[f64]) -> bool {
    let border = 1.0 + 2f64.powi(-20);
    let axes = points.chunks(cell.rows.max(1)).zip(centre);
    let is_out = |(column, middle): (&[f64], &f64)| {
        let size = |point: &f64| coordinate(cell.length, *middle, *point).abs();
        column.iter().any(|point| size(point) > border)
    };
    axes.into_iter().any(is_out)
}

/// S of each index at a reference coordinate: (sum*2 - 1)/p.
fn shares(order: usize, node_polynomials: &[f64], x: f64) -> Vec<f64> {
    let t = polynomials(order, x);
    let share = |index: usize| {
        let at_node = (0..order).map(|k| node_polynomials[index + k * order]);
        (dot(t.iter().copied(), at_node) * 2.0 - 1.0) / order as f64
    };
    (0..order).map(share).collect()
}

/// S' of each index there: (sum * (2/p)) * (2/length), with T' at the point.
fn share_slopes(order: usize, length: f64, node_polynomials: &[f64], x: f64) -> Vec<f64> {
    let d = derivatives(order, x);
    let slope = |index: usize| {
        let at_node = (0..order).map(|k| node_polynomials[index + k * order]);
        let sum = dot(d.iter().copied(), at_node);
        (sum * (2.0 / order as f64)) * (2.0 / length)
    };
    (0..order).map(slope).collect()
}

/// For each axis and each index, the floats of all points: one column of a working buffer.
fn by_axis(cell: Cell, scaled: &[f64], rule: impl Fn(f64) -> Vec<f64>) -> Vec<Vec<Vec<f64>>> {
    let axis = |axis: usize| {
        let column = &scaled[axis * cell.rows..(axis + 1) * cell.rows];
        let at_points: Vec<_> = column.iter().map(|&x| rule(x)).collect();
        let of_index = |index: usize| at_points.iter().map(|list| list[index]).collect();
        (0..cell.order).map(of_index).collect()
    };
    (0..cell.dimension).map(axis).collect()
}

/// A value column: 1 times the axis factors in axis order.
fn value(factors: &[Vec<Vec<f64>>], places: &[usize], row: usize) -> f64 {
    let axes = places.iter().enumerate();
    axes.fold(1.0, |product, (axis, &index)| {
        product * factors[axis][index][row]
    })
}

/// A gradient column: S' of axis g, then the other axes in order.
fn gradient(
    factors: &[Vec<Vec<f64>>],
    slopes: &[Vec<Vec<f64>>],
    places: &[usize],
    [g, row]: [usize; 2],
) -> f64 {
    let others = places.iter().enumerate().filter(|(axis, _)| *axis != g);
    let start = slopes[g][places[g]][row];
    others.fold(start, |product, (axis, &index)| {
        product * factors[axis][index][row]
    })
}

/// What all five lent buffers become.
pub fn coefficients(
    cell: Cell,
    with_gradients: bool,
    centre: &[f64],
    node_polynomials: &[f64],
    lent: &Lent,
) -> Result<Lent, u8> {
    check(cell, with_gradients, centre, node_polynomials, lent)?;
    let Cell {
        dimension,
        order,
        length,
        rows,
    } = cell;
    let nodes = nodes_of_block(dimension, order);
    let scale = |(place, point): (usize, &f64)| coordinate(length, centre[place / rows], *point);
    let scaled: Vec<f64> = lent[0].iter().enumerate().map(scale).collect();
    let factors = by_axis(cell, &scaled, |x| shares(order, node_polynomials, x));
    let slopes = by_axis(cell, &scaled, |x| {
        share_slopes(order, length, node_polynomials, x)
    });
    let mut values = vec![];
    let mut gradients = vec![];
    for node in 0..nodes {
        let places = indices(dimension, order, node);
        values.extend((0..rows).map(|row| value(&factors, &places, row)));
    }
    let last = if with_gradients { dimension * nodes } else { 0 };
    for column in 0..last {
        let places = indices(dimension, order, column % nodes);
        let at = |row: usize| gradient(&factors, &slopes, &places, [column / nodes, row]);
        gradients.extend((0..rows).map(at));
    }
    let flat = |columns: Vec<Vec<Vec<f64>>>| columns.concat().concat();
    let slopes = if with_gradients { flat(slopes) } else { vec![] };
    Ok([scaled, values, gradients, flat(factors), slopes])
}
