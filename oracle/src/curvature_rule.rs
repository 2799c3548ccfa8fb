//! The rule of second derivatives and of curvature, in our own words: the text has neither. It is written
//! from the request alone. T and T' at the points are the text's own.

use oracle::chebyshev::reach::{self, Cell};

/// T, T' and T'' at points, each a row a point, column after column.
pub struct Polynomials {
    pub values: Vec<f64>,
    pub derivatives: Vec<f64>,
    pub second: Vec<f64>,
}

/// What the rule leaves: the curvature of what each node counts for, pair after pair, what it is made of,
/// axis after axis, and the polynomials of the last axis.
pub struct Curvature {
    pub curvatures: Vec<f64>,
    pub factors: Vec<f64>,
    pub slopes: Vec<f64>,
    pub bends: Vec<f64>,
    pub room: Vec<f64>,
}

/// Runs the rule of second derivatives.
pub fn polynomials(order: usize, points: &[f64]) -> Polynomials {
    let (values, derivatives) = reach::polynomials(order, points, true);
    let derivatives = derivatives.expect("derivatives, as asked");
    let rows = points.len();
    let mut second = Vec::with_capacity(order * rows);
    for j in 0..order {
        for (row, x) in points.iter().enumerate() {
            let before = |list: &[f64], steps: usize| list[(j - steps) * rows + row];
            second.push(match j {
                0 | 1 => 0.0,
                _ => {
                    let slope = 4.0 * before(&derivatives, 1);
                    let bend = (2.0 * x) * before(&second, 1);
                    (slope + bend) - before(&second, 2)
                }
            });
        }
    }
    Polynomials {
        values,
        derivatives,
        second,
    }
}

/// One column a node of an axis: the product of the polynomials, or of their derivatives, with those at
/// the node, in rising index from +0.0, finished.
fn shares(cell: &Cell, at_points: &[f64], finish: impl Fn(f64) -> f64) -> Vec<f64> {
    let (order, rows) = (cell.order, cell.rows());
    let mut list = Vec::with_capacity(order * rows);
    for node in 0..order {
        for row in 0..rows {
            let terms = (0..order)
                .map(|k| at_points[k * rows + row] * cell.node_polynomials[k * order + node]);
            list.push(finish(terms.fold(0.0, |sum, term| sum + term)));
        }
    }
    list
}

/// The products of a column for each axis, with each node's index on it; the last axis varies fastest.
fn products(cell: &Cell, axes: &[(usize, &[f64])]) -> Vec<f64> {
    let (order, rows) = (cell.order, cell.rows());
    let mut list = Vec::new();
    for node in 0..order.pow(cell.dimension as u32) {
        for row in 0..rows {
            let at = |&(axis, floats): &(usize, &[f64])| {
                let index = node / order.pow((cell.dimension - 1 - axis) as u32) % order;
                floats[(axis * order + index) * rows + row]
            };
            let product = axes.iter().map(at).reduce(|all, one| all * one);
            list.push(product.expect("an axis"));
        }
    }
    list
}

/// Runs the rule of curvature on a cell, whose points are reference coordinates.
pub fn run(cell: &Cell) -> Curvature {
    let (dimension, rows) = (cell.dimension, cell.rows());
    let (share, per_length) = (2.0 / cell.order as f64, 2.0 / cell.length);
    let [mut factors, mut slopes, mut bends, mut room] = [const { Vec::new() }; 4];
    for axis in 0..dimension {
        let at = polynomials(cell.order, &cell.points[axis * rows..(axis + 1) * rows]);
        let order = cell.order as f64;
        factors.extend(shares(cell, &at.values, |sum| (sum * 2.0 - 1.0) / order));
        slopes.extend(shares(cell, &at.derivatives, |sum| {
            (sum * share) * per_length
        }));
        bends.extend(shares(cell, &at.second, |sum| {
            ((sum * share) * per_length) * per_length
        }));
        room = [at.values, at.derivatives, at.second].concat();
    }
    let mut curvatures = Vec::new();
    for g in 0..dimension {
        for h in g..dimension {
            let mut axes = match g == h {
                true => vec![(g, &bends[..])],
                false => vec![(g, &slopes[..]), (h, &slopes[..])],
            };
            let others = (0..dimension).filter(|axis| ![g, h].contains(axis));
            axes.extend(others.map(|axis| (axis, &factors[..])));
            curvatures.extend(products(cell, &axes));
        }
    }
    Curvature {
        curvatures,
        factors,
        slopes,
        bends,
        room,
    }
}
