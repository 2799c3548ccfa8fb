//! Draws a case of each call on floats, but for the cross approximation.

use super::draw;
use crate::choices::{ask_argmax, ask_cutoff};
use crate::floats::Stream;
use crate::points::{ask_sources, ask_targets};
use crate::polynomials::{MOST_POINTS, ask_polynomials};
use crate::random::Random;
use crate::transfers::ask_transfer;
use crate::{coefficients, curvatures, operators};
use oracle::chebyshev::reach::{Block, Cell};

/// The most coefficients that the replay has room for, and the most entries of a list.
const MOST_VALUES: usize = 65536;
const MOST_ENTRIES: usize = 1024;

pub fn polynomials(random: &mut Random, stream: &mut Stream, with_derivatives: bool) {
    let order = draw::order(random, 1);
    let count = draw::size(random, MOST_POINTS);
    let points = draw::floats(random, count);
    ask_polynomials(stream, order, with_derivatives, &points);
}

pub fn second_derivatives(random: &mut Random, stream: &mut Stream) {
    let order = draw::order(random, 1);
    let count = draw::size(random, MOST_POINTS);
    curvatures::ask_second_derivatives(stream, order, &draw::floats(random, count));
}

pub fn operators(random: &mut Random, stream: &mut Stream) {
    // The answers of orders up to 4 are written out.
    let most = random.one_of(&[4, 16]);
    let order = 1 + random.below(most);
    let (nodes, polynomials) = draw::nodes(random, order);
    operators::ask(stream, order, &nodes, &polynomials);
}

pub fn transfer(random: &mut Random, stream: &mut Stream, transpose: bool) {
    let dimension = draw::dimension(random);
    let order = draw::order(random, dimension);
    let block = Block {
        dimension,
        order,
        child: random.below(1 << dimension),
        transpose,
        input: draw::floats(random, order.pow(dimension as u32)),
        operators: draw::floats(random, 2 * order * order),
    };
    ask_transfer(stream, &block);
}

pub fn targets(random: &mut Random, stream: &mut Stream) {
    let dimension = draw::dimension(random);
    let order = draw::order(random, dimension);
    let (nodes, _) = draw::nodes(random, order);
    ask_targets(stream, dimension, draw::length(random), &nodes);
}

pub fn sources(random: &mut Random, stream: &mut Stream) {
    let dimension = draw::dimension(random);
    let order = draw::order(random, dimension);
    let (nodes, _) = draw::nodes(random, order);
    let reference = random.below([2, 7, 16][dimension - 1]);
    let length = draw::length(random);
    ask_sources(stream, dimension, length, reference, &nodes);
}

/// Points in a cell, a column an axis: floats of any sort, brought into it, or some drawn in it.
fn points(random: &mut Random, centre: &[f64], length: f64, rows: usize) -> Vec<f64> {
    if random.below(2) == 0 {
        let mut anywhere = draw::finite_floats(random, rows * centre.len());
        coefficients::bring_in(length, centre, &mut anywhere);
        return anywhere;
    }
    let mut column = |middle: &f64| {
        let scaled = random.units(rows).into_iter();
        let placed = scaled.map(|x| middle + x * (0.5 * length));
        placed.collect::<Vec<f64>>()
    };
    let mut points: Vec<f64> = centre.iter().flat_map(&mut column).collect();
    coefficients::bring_in(length, centre, &mut points);
    points
}

/// A cell with points, of which the replay has room for all coefficients.
pub fn cell(random: &mut Random, with_gradients: bool) -> Cell {
    let dimension = draw::dimension(random);
    let order = draw::order(random, dimension);
    let nodes = order.pow(dimension as u32);
    let most = MOST_POINTS.min(MOST_VALUES / nodes.max(dimension * order));
    let rows = draw::size(random, most);
    let length = draw::length(random);
    let centre = draw::finite_floats(random, dimension);
    Cell {
        dimension,
        order,
        with_gradients,
        length,
        points: points(random, &centre, length, rows),
        centre,
        node_polynomials: draw::nodes(random, order).1,
    }
}

pub fn coefficients(random: &mut Random, stream: &mut Stream, with_gradients: bool) {
    coefficients::ask(stream, &cell(random, with_gradients));
}

/// Coefficients at coordinates anywhere, most of them outside the cell.
///
/// In half of the cases the cell lies about 0 and has length 2, where the text's scaling leaves all floats
/// as they are, so that the coordinates are of every sort that is drawn.
pub fn coordinates(random: &mut Random, stream: &mut Stream, with_gradients: bool) {
    let mut cell = cell(random, with_gradients);
    cell.points = draw::finite_floats(random, cell.points.len());
    if random.below(2) == 0 {
        cell.centre.fill(0.0);
        cell.length = 2.0;
    }
    coefficients::keep_finite(cell.length, &cell.centre, &mut cell.points);
    coefficients::ask_at_coordinates(stream, &cell);
}

/// Curvature at coordinates in the cell, or anywhere.
pub fn curvature(random: &mut Random, stream: &mut Stream) {
    let mut cell = cell(random, true);
    let count = cell.points.len();
    cell.points = match random.below(2) {
        0 => random.units(count),
        _ => draw::finite_floats(random, count),
    };
    curvatures::ask(stream, &cell);
}

/// A mask of ones only, of zeros only, of as many of each, or of few ones.
fn mask(random: &mut Random, count: usize) -> Vec<u8> {
    let bytes = random.one_of(&[[1, 1, 1, 1], [0, 0, 0, 0], [0, 1, 0, 1], [0, 0, 0, 1]]);
    (0..count).map(|_| random.one_of(&bytes)).collect()
}

pub fn argmax(random: &mut Random, stream: &mut Stream) {
    let count = draw::size(random, MOST_ENTRIES);
    let entries = draw::floats(random, count);
    ask_argmax(stream, &entries, &mask(random, count));
}

/// The values fall, as singular values do, in half of the cases; there is always one.
pub fn cutoff(random: &mut Random, stream: &mut Stream) {
    let count = draw::size(random, MOST_ENTRIES).max(1);
    let mut values = draw::floats(random, count);
    if random.below(2) == 0 {
        values.sort_by(|a, b| b.abs().total_cmp(&a.abs()));
    }
    ask_cutoff(stream, &values, draw::epsilon(random));
}
