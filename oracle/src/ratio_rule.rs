//! The rule of Graham's ratio, in our own words: the text has no such thing. It is written from the request
//! alone. What the nodes count for at the points is the text's own.

use oracle::chebyshev::reach::{self, Cell};

/// The answers at a point.
const RATIO: u8 = 0;
const UNUSABLE: u8 = 1;
const FRESH: u8 = 2;

/// The local expansions of three gases.
pub struct Gases {
    pub carbon_monoxide: Vec<f64>,
    pub nitrogen: Vec<f64>,
    pub oxygen: Vec<f64>,
}

/// A cell with its points, the gases there, and the least deficiency that has a ratio.
pub struct Map {
    pub cell: Cell,
    pub floor: f64,
    pub gases: Gases,
}

/// What the rule leaves; a point has an answer, and a ratio or none.
pub struct Ratios {
    pub points: Vec<f64>,
    pub values: Vec<f64>,
    pub answers: Vec<u8>,
    pub ratios: Vec<Option<f64>>,
}

/// A gas at each point: the values, a row a point, times the expansion, in rising index from +0.0.
fn product(rows: usize, values: &[f64], expansion: &[f64]) -> Vec<f64> {
    let mut gas = vec![0.0; rows];
    // There are no columns to go through without a point.
    for (column, entry) in values.chunks(rows.max(1)).zip(expansion) {
        for (sum, count) in gas.iter_mut().zip(column) {
            *sum += count * entry;
        }
    }
    gas
}

/// How much oxygen is missing at each point, against what the nitrogen says.
fn missing(map: &Map, values: &[f64]) -> Vec<f64> {
    let rows = map.cell.rows();
    let nitrogen = product(rows, values, &map.gases.nitrogen);
    let oxygen = product(rows, values, &map.gases.oxygen);
    let pairs = nitrogen.into_iter().zip(oxygen);
    pairs.map(|(n2, o2)| 0.265 * n2 - o2).collect()
}

/// The answer at a point, and its ratio if it has one.
fn answer(floor: f64, carbon_monoxide: f64, deficiency: f64) -> (u8, Option<f64>) {
    if !deficiency.is_finite() {
        return (UNUSABLE, None);
    }
    if deficiency < floor {
        return (FRESH, None);
    }
    let ratio = 100.0 * carbon_monoxide / deficiency;
    match ratio.is_finite() {
        true => (RATIO, Some(ratio)),
        false => (UNUSABLE, None),
    }
}

/// The deficiency at each point.
pub fn deficiencies(map: &Map) -> Vec<f64> {
    missing(map, &reach::coefficients(&map.cell).values)
}

/// Runs the rule on a map.
pub fn run(map: &Map) -> Ratios {
    let coefficients = reach::coefficients(&map.cell);
    let values = coefficients.values;
    let gas = product(map.cell.rows(), &values, &map.gases.carbon_monoxide);
    let pairs = gas.into_iter().zip(missing(map, &values));
    let (answers, ratios) = pairs.map(|(co, d)| answer(map.floor, co, d)).unzip();
    Ratios {
        points: coefficients.points,
        values,
        answers,
        ratios,
    }
}
