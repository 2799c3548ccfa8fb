//! Builds the cases that ask for second derivatives, and for curvature at coordinates, answered by our own
//! rule: the text has neither.

use crate::curvature_rule;
use crate::floats::{Header, Stream, shown};
use oracle::chebyshev::reach::Cell;

const SECOND_DERIVATIVES: u8 = 13;
const CURVATURE: u8 = 14;

/// Adds the case of an order and points.
pub fn ask_second_derivatives(stream: &mut Stream, order: usize, points: &[f64]) {
    let header = Header {
        kind: SECOND_DERIVATIVES,
        order,
        rows: points.len(),
        ..Header::default()
    };
    let found = curvature_rule::polynomials(order, points);
    let line = format!(
        "second derivatives {order} {}:{} |{} |{}",
        points.len(),
        shown(&found.values),
        shown(&found.derivatives),
        shown(&found.second)
    );
    stream.case(header, &[points], &line);
}

/// Adds the case of a cell whose points are reference coordinates, in the cell or not. The library only
/// reads them, so that they stand in the line as they were given.
pub fn ask(stream: &mut Stream, cell: &Cell) {
    let (dimension, order, rows) = (cell.dimension, cell.order, cell.rows());
    let header = Header {
        kind: CURVATURE,
        order,
        dimension,
        rows,
        ..Header::default()
    };
    let found = curvature_rule::run(cell);
    let line = format!(
        "curvature {dimension} {order} {rows}:{} |{} |{} |{} |{} |{}",
        shown(&cell.points),
        shown(&found.curvatures),
        shown(&found.factors),
        shown(&found.slopes),
        shown(&found.bends),
        shown(&found.room)
    );
    let lists: [&[f64]; 3] = [&[cell.length], &cell.node_polynomials, &cell.points];
    stream.case(header, &lists, &line);
}
