//! Builds the cases that ask for Graham's ratio at points of a cell, answered by our own rule: the text has
//! no such thing.

use crate::floats::{Header, Stream, shown};
use crate::ratio_rule::{self, Map};

const RATIOS: u8 = 11;

/// What a place for a ratio holds before the call, so that a place that stays as lent is seen.
const LENT_RATIO: f64 = 7.0;

/// Adds the case of a map, with what our own rule answers.
pub fn ask(stream: &mut Stream, map: &Map) {
    let (cell, gases) = (&map.cell, &map.gases);
    let (dimension, order, rows) = (cell.dimension, cell.order, cell.rows());
    let header = Header {
        kind: RATIOS,
        order,
        dimension,
        rows,
        ..Header::default()
    };
    let found = ratio_rule::run(map);
    let answers: String = found
        .answers
        .iter()
        .map(|byte| format!(" {byte}"))
        .collect();
    let left = |ratio: &Option<f64>| ratio.unwrap_or(LENT_RATIO);
    let ratios: Vec<f64> = found.ratios.iter().map(left).collect();
    let line = format!(
        "ratios {dimension} {order} {rows}:{} |{} |{answers} |{}",
        shown(&found.points),
        shown(&found.values),
        shown(&ratios)
    );
    let lists: [&[f64]; 7] = [
        &[cell.length, map.floor],
        &cell.centre,
        &cell.node_polynomials,
        &cell.points,
        &gases.carbon_monoxide,
        &gases.nitrogen,
        &gases.oxygen,
    ];
    stream.case(header, &lists, &line);
}
