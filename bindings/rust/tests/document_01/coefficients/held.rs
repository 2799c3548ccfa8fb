//! Draws what the two calls are asked about, and holds each to its rule, with all that is lent.

use bbfmm::{Cell, Gradients, Refusal, get_approximation_coefficients, scale_points};

use crate::draw::Draw;
use crate::held::{Tally, bits};
use crate::rule::before;
use crate::rule::coefficients::{Asked, Frame, Lent, rows_of, scale as rule_of_scaling};

/// What both calls are made of: a cell, points that are not scaled yet, and what is lent to be written.
#[derive(Clone, Debug)]
pub struct Drawn {
    pub cell: Cell,
    pub with_gradients: bool,
    pub centre: Vec<f64>,
    pub node_polynomials: Vec<f64>,
    pub points: Vec<f64>,
    pub lent: Lent,
}

impl Drawn {
    pub fn frame(&self) -> Frame<'_> {
        Frame {
            dimension: self.cell.dimension,
            length: self.cell.length,
            centre: &self.centre,
        }
    }

    /// The same cell, asked about at these coordinates.
    pub fn asked<'a>(&'a self, coordinates: &'a [f64]) -> Asked<'a> {
        Asked {
            dimension: self.cell.dimension,
            order: self.cell.order,
            length: self.with_gradients.then_some(self.cell.length),
            node_polynomials: &self.node_polynomials,
            coordinates,
        }
    }

    /// What the one call left that the two replace: points, values, gradients, factors, slopes.
    pub fn before(&self) -> Result<before::Lent, u8> {
        let cell = Cell {
            rows: rows_of(&self.points, self.cell.dimension),
            ..self.cell
        };
        let [values, gradients, factors, slopes] = self.lent.clone();
        let lent = [self.points.clone(), values, gradients, factors, slopes];
        let (centre, polynomials) = (&self.centre, &self.node_polynomials);
        before::coefficients(cell, self.with_gradients, centre, polynomials, &lent)
    }
}

/// Points about the middle of a cell, axis by axis. Far from 0 the sum rounds, and may leave the
/// cell.
pub fn points(draw: &mut Draw, cell: Cell, centre: &[f64], count: usize) -> Vec<f64> {
    let mut point = |place: usize| {
        let middle = centre.get(place / cell.rows.max(1)).unwrap_or(&0.0);
        middle + draw.offset() * (cell.length * 0.5)
    };
    (0..count).map(&mut point).collect()
}

/// Reference coordinates: in the cell or beside its border; or anywhere, most of them outside.
pub fn coordinates(draw: &mut Draw, count: usize) -> Vec<f64> {
    if draw.one_in(2) {
        return draw.coordinates(count);
    }
    (0..count).map(|_| draw.offset()).collect()
}

/// What is lent for a shape, now and then of another length. Too many rows are refused whatever these
/// buffers are: no need for large ones.
fn lent(draw: &mut Draw, cell: Cell, with_gradients: bool) -> Lent {
    let (dimension, order) = (cell.dimension.min(3), cell.order.min(16));
    let rows = if cell.rows > 4_096 { 2 } else { cell.rows };
    let nodes = order.pow(dimension as u32);
    let mut wanted = |length: usize| match with_gradients {
        true => draw.lent(length),
        false => vec![],
    };
    let gradients = wanted(rows * nodes * dimension);
    let slopes = wanted(rows * dimension * order);
    let values = draw.lent(rows * nodes);
    let factors = draw.lent(rows * dimension * order);
    [values, gradients, factors, slopes]
}

/// What both calls are asked about a cell, half of the time with gradients.
pub fn drawn(draw: &mut Draw, cell: Cell) -> Drawn {
    let with_gradients = draw.one_in(2);
    let length = draw.length(cell.dimension.min(3));
    let centre = draw.coordinates(length);
    let node_polynomials = draw.lent(cell.order.min(17).pow(2));
    let count = draw.length(cell.rows * cell.dimension.min(3));
    let points = points(draw, cell, &centre, count);
    let lent = lent(draw, cell, with_gradients);
    Drawn {
        cell,
        with_gradients,
        centre,
        node_polynomials,
        points,
        lent,
    }
}

/// Sees that what is only read stays as it came, in every bit.
fn reading<A>(lists: [&[f64]; 2], call: impl FnOnce() -> A) -> A {
    let before = lists.map(bits);
    let answer = call();
    assert_eq!(lists.map(bits), before, "what is only read");
    answer
}

pub fn scale(frame: Frame, points: &mut [f64]) -> Result<(), Refusal> {
    reading([frame.centre, &[]], || {
        scale_points(frame.dimension, frame.length, frame.centre, points)
    })
}

pub fn ask(asked: &Asked, lent: &mut Lent) -> Result<(), Refusal> {
    let Asked {
        dimension,
        order,
        length,
        node_polynomials,
        coordinates,
    } = *asked;
    let [values, gradients, factors, slopes] = lent;
    let wanted = length.map(|length| Gradients {
        length,
        gradients,
        slopes,
    });
    reading([node_polynomials, coordinates], || {
        get_approximation_coefficients(
            dimension,
            order,
            node_polynomials,
            coordinates,
            values,
            factors,
            wanted,
        )
    })
}

/// Holds a scaling to the rule. Gives its refusal, if there is one, and the points as it left them.
pub fn scaling_is_ruled(
    tally: &mut Tally,
    frame: Frame,
    points: &[f64],
) -> (Option<Refusal>, Vec<f64>) {
    let before = [points.to_vec()];
    let mut after = before.clone();
    let answer = scale(frame, &mut after[0]);
    let ruled = rule_of_scaling(frame, points);
    tally.floats(&(frame, points), &answer, ruled, [&before, &after]);
    let [after] = after;
    (answer.err(), after)
}

/// Holds the coefficients to the rule. Gives the refusal, if there is one, and what is lent as the call
/// left it.
pub fn asked_is_ruled(tally: &mut Tally, asked: &Asked, before: &Lent) -> (Option<Refusal>, Lent) {
    let mut after = before.clone();
    let answer = ask(asked, &mut after);
    let ruled = asked.coefficients(before);
    tally.floats(asked, &answer, ruled, [before, &after]);
    (answer.err(), after)
}
