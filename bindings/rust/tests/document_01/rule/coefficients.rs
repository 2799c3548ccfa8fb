//! Points scaled into their cell, and what the nodes count for at reference coordinates: documents 01 to
//! 03, request E7.

use super::chebyshev::{derivatives, polynomials};
use super::{
    bad_cell, bad_dimension, bad_length, bad_order, dot, indices, nodes_of_block, refusal,
};

/// The most points of a call.
pub(super) const MOST_POINTS: usize = 4096;

/// How many whole rows of D entries a list has.
pub fn rows_of(list: &[f64], dimension: usize) -> usize {
    if dimension == 0 {
        0
    } else {
        list.len() / dimension
    }
}

pub(super) fn not_finite(list: &[f64]) -> bool {
    list.iter().any(|float| !float.is_finite())
}

/// Where points are to be scaled.
#[derive(Clone, Copy, Debug)]
pub struct Frame<'a> {
    pub dimension: usize,
    pub length: f64,
    pub centre: &'a [f64],
}

/// Each point's reference coordinate on each axis, a column an axis. Lists that do not fit are cut.
fn scaled(frame: Frame, points: &[f64]) -> Vec<f64> {
    let half = frame.length * 0.5;
    let columns = points.chunks(rows_of(points, frame.dimension).max(1));
    let axes = columns.zip(frame.centre);
    axes.flat_map(|(column, middle)| column.iter().map(move |point| (point - middle) / half))
        .collect()
}

/// What the points become.
pub fn scale(frame: Frame, points: &[f64]) -> Result<[Vec<f64>; 1], u8> {
    let Frame {
        dimension,
        length,
        centre,
    } = frame;
    let rows = rows_of(points, dimension);
    let found = scaled(frame, points);
    let border = 1.0 + 2f64.powi(-20);
    refusal(&[
        (11, found.iter().any(|coordinate| coordinate.abs() > border)),
        (9, not_finite(centre) || not_finite(points)),
        bad_cell(length),
        bad_length(centre, &[dimension]),
        bad_length(points, &[rows, dimension]),
        (3, rows > MOST_POINTS),
        bad_dimension(dimension),
    ])?;
    Ok([found])
}

/// What is asked about: the nodes of a cell, at coordinates; and the cell's length, where gradients are
/// wanted.
#[derive(Clone, Copy, Debug)]
pub struct Asked<'a> {
    pub dimension: usize,
    pub order: usize,
    pub length: Option<f64>,
    pub node_polynomials: &'a [f64],
    pub coordinates: &'a [f64],
}

/// What is lent to be written: values, gradients, factors, slopes.
pub type Lent = [Vec<f64>; 4];

impl Asked<'_> {
    pub(super) fn rows(&self) -> usize {
        rows_of(self.coordinates, self.dimension)
    }

    fn check(&self, lent: &Lent) -> Result<(), u8> {
        let Self {
            dimension,
            order,
            length,
            node_polynomials,
            coordinates,
        } = *self;
        let (rows, nodes) = (self.rows(), nodes_of_block(dimension, order));
        let wanted = usize::from(length.is_some());
        let [values, gradients, factors, slopes] = lent;
        refusal(&[
            (9, not_finite(coordinates)),
            length.map_or((8, false), bad_cell),
            bad_length(node_polynomials, &[order, order]),
            bad_length(coordinates, &[rows, dimension]),
            bad_length(values, &[rows, nodes]),
            bad_length(gradients, &[wanted, rows, dimension, nodes]),
            bad_length(factors, &[rows, dimension, order]),
            bad_length(slopes, &[wanted, rows, dimension, order]),
            (3, rows > MOST_POINTS),
            bad_order(order),
            bad_dimension(dimension),
        ])
    }

    /// The sum of the products of a list with T of one node.
    pub(super) fn sum(&self, list: &[f64], node: usize) -> f64 {
        let at_node = self.node_polynomials[node..].iter().step_by(self.order);
        dot(list.iter().copied(), at_node.copied())
    }

    /// A float for each axis, node of the axis and point, in this order.
    pub(super) fn of_axes(&self, rule: impl Fn(f64, usize) -> f64) -> Vec<f64> {
        let mut list = vec![];
        for axis in 0..self.dimension {
            for node in 0..self.order {
                let column = &self.coordinates[axis * self.rows()..][..self.rows()];
                list.extend(column.iter().map(|x| rule(*x, node)));
            }
        }
        list
    }

    /// S = (sum*2 - 1)/p.
    pub(super) fn factors(&self) -> Vec<f64> {
        self.of_axes(|x, node| {
            let sum = self.sum(&polynomials(self.order, x), node);
            (sum * 2.0 - 1.0) / self.order as f64
        })
    }

    /// S' = (sum * (2/p)) * (2/length), with T' at the point.
    pub(super) fn slopes(&self, length: f64) -> Vec<f64> {
        self.of_axes(|x, node| {
            let sum = self.sum(&derivatives(self.order, x), node);
            (sum * (2.0 / self.order as f64)) * (2.0 / length)
        })
    }

    /// A column for each node: at each point the product of these floats, one an axis, from the first on.
    pub(super) fn columns(&self, axes: &[(usize, &[f64])]) -> Vec<f64> {
        let mut list = vec![];
        for node in 0..nodes_of_block(self.dimension, self.order) {
            let places = indices(self.dimension, self.order, node);
            for row in 0..self.rows() {
                let float = |&(axis, floats): &(usize, &[f64])| {
                    floats[(axis * self.order + places[axis]) * self.rows() + row]
                };
                list.push(axes.iter().map(float).fold(1.0, |all, one| all * one));
            }
        }
        list
    }

    /// The columns of axis g: S' of this axis, then S of the others in order.
    fn gradients(&self, g: usize, factors: &[f64], slopes: &[f64]) -> Vec<f64> {
        let others = (0..self.dimension).filter(|axis| *axis != g);
        let mut axes = vec![(g, slopes)];
        axes.extend(others.map(|axis| (axis, factors)));
        self.columns(&axes)
    }

    /// What all four lent buffers become.
    pub fn coefficients(&self, lent: &Lent) -> Result<Lent, u8> {
        self.check(lent)?;
        let factors = self.factors();
        let slopes = self.length.map_or(vec![], |length| self.slopes(length));
        let axes: Vec<_> = (0..self.dimension)
            .map(|axis| (axis, &factors[..]))
            .collect();
        let values = self.columns(&axes);
        let wanted = self.length.map_or(0..0, |_| 0..self.dimension);
        let gradients = wanted.flat_map(|g| self.gradients(g, &factors, &slopes));
        let gradients = gradients.collect();
        Ok([values, gradients, factors, slopes])
    }
}
