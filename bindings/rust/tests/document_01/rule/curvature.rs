//! The curvature of what the nodes count for: documents 01 to 03, request E13.

use super::chebyshev::{at_points, derivatives, polynomials, second_derivatives};
use super::coefficients::{Asked, MOST_POINTS, not_finite};
use super::{bad_cell, bad_dimension, bad_length, bad_order, nodes_of_block, refusal};

/// What is lent to be written: curvatures, factors, slopes, bends, room.
pub type Lent = [Vec<f64>; 5];

/// The pairs of axes g <= h, in lexicographic order.
fn pairs(dimension: usize) -> impl Iterator<Item = (usize, usize)> {
    (0..dimension).flat_map(move |g| (g..dimension).map(move |h| (g, h)))
}

fn check(asked: &Asked, length: f64, lent: &Lent) -> Result<(), u8> {
    let Asked {
        dimension,
        order,
        node_polynomials,
        coordinates,
        ..
    } = *asked;
    let (rows, nodes) = (asked.rows(), nodes_of_block(dimension, order));
    let [curvatures, factors, slopes, bends, room] = lent;
    let of_axes = |list: &Vec<f64>| bad_length(list, &[rows, dimension, order]);
    refusal(&[
        (9, not_finite(coordinates)),
        bad_cell(length),
        bad_length(node_polynomials, &[order, order]),
        bad_length(coordinates, &[rows, dimension]),
        bad_length(curvatures, &[rows, nodes, pairs(dimension.min(3)).count()]),
        of_axes(factors),
        of_axes(slopes),
        of_axes(bends),
        bad_length(room, &[3, rows, order]),
        (3, rows > MOST_POINTS),
        bad_order(order),
        bad_dimension(dimension),
    ])
}

/// S'' = ((sum * (2/p)) * (2/length)) * (2/length), with T'' at the point.
fn bends(asked: &Asked, length: f64) -> Vec<f64> {
    asked.of_axes(|x, node| {
        let sum = asked.sum(&second_derivatives(asked.order, x), node);
        ((sum * (2.0 / asked.order as f64)) * (2.0 / length)) * (2.0 / length)
    })
}

/// What all five lent buffers become.
pub fn curvature(asked: &Asked, length: f64, lent: &Lent) -> Result<Lent, u8> {
    check(asked, length, lent)?;
    let (factors, slopes, bends) = (asked.factors(), asked.slopes(length), bends(asked, length));
    let of_pair = |(g, h): (usize, usize)| {
        let mut axes = match g == h {
            true => vec![(g, &bends[..])],
            false => vec![(g, &slopes[..]), (h, &slopes[..])],
        };
        let others = (0..asked.dimension).filter(|axis| *axis != g && *axis != h);
        axes.extend(others.map(|axis| (axis, &factors[..])));
        asked.columns(&axes)
    };
    let curvatures = pairs(asked.dimension).flat_map(of_pair).collect();
    let last = &asked.coordinates[(asked.dimension - 1) * asked.rows()..];
    let room = [polynomials, derivatives, second_derivatives]
        .into_iter()
        .flat_map(|rule| at_points(rule, asked.order, last));
    let room = room.collect();
    Ok([curvatures, factors, slopes, bends, room])
}
