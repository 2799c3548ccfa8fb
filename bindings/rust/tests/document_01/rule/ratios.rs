//! Graham's ratio of request E5, over the value coefficients of a cell.

use bbfmm::{Cell, Gases};

use super::before::coefficients;
use super::{bad_length, dot, nodes_of_block, refusal};

/// Why a point has no ratio.
const UNUSABLE: u8 = 1;
const FRESH: u8 = 2;

/// What a map is made of, and only read.
#[derive(Clone, Copy, Debug)]
pub struct Map<'a> {
    pub cell: Cell,
    pub floor: f64,
    pub centre: &'a [f64],
    pub node_polynomials: &'a [f64],
    pub gases: Gases<'a>,
}

/// What is lent: points, values, factors, ratios; and the answers, a byte a point.
#[derive(Clone, Debug)]
pub struct Lent {
    pub floats: [Vec<f64>; 4],
    pub answers: Vec<u8>,
}

/// Points, values and factors as scaling and the coefficient call leave them, or the lowest number of the
/// two.
fn below(map: &Map, lent: &Lent) -> Result<[Vec<f64>; 3], u8> {
    let Map {
        cell,
        centre,
        node_polynomials,
        ..
    } = *map;
    let [points, values, factors, _] = lent.floats.clone();
    let lent = [points, values, vec![], factors, vec![]];
    let [points, values, _, factors, _] =
        coefficients(cell, false, centre, node_polynomials, &lent)?;
    Ok([points, values, factors])
}

fn check(map: &Map, lent: &Lent, of_coefficients: Option<u8>) -> Result<(), u8> {
    let Cell {
        dimension,
        order,
        rows,
        ..
    } = map.cell;
    let nodes = nodes_of_block(dimension, order);
    let is_floor = map.floor.is_finite() && map.floor > 0.0;
    refusal(&[
        (12, !is_floor),
        (of_coefficients.unwrap_or(0), of_coefficients.is_some()),
        bad_length(map.gases.carbon_monoxide, &[nodes]),
        bad_length(map.gases.nitrogen, &[nodes]),
        bad_length(map.gases.oxygen, &[nodes]),
        bad_length(&lent.answers, &[rows]),
        bad_length(&lent.floats[3], &[rows]),
    ])
}

/// A gas at a point: the row of values that the point has, times the expansion.
fn at_point(rows: usize, values: &[f64], row: usize, expansion: &[f64]) -> f64 {
    let counts = values[row..].iter().copied().step_by(rows);
    dot(counts, expansion.iter().copied())
}

/// (0.265 * N2) - O2.
fn deficiency(rows: usize, values: &[f64], row: usize, gases: Gases) -> f64 {
    let nitrogen = at_point(rows, values, row, gases.nitrogen);
    let oxygen = at_point(rows, values, row, gases.oxygen);
    (0.265 * nitrogen) - oxygen
}

/// The ratio of a point, or why it has none.
fn ratio(map: &Map, values: &[f64], row: usize) -> Result<f64, u8> {
    let rows = map.cell.rows;
    let deficiency = deficiency(rows, values, row, map.gases);
    if !deficiency.is_finite() {
        return Err(UNUSABLE);
    }
    if deficiency < map.floor {
        return Err(FRESH);
    }
    let carbon_monoxide = at_point(rows, values, row, map.gases.carbon_monoxide);
    let ratio = (100.0 * carbon_monoxide) / deficiency;
    if ratio.is_finite() {
        Ok(ratio)
    } else {
        Err(UNUSABLE)
    }
}

/// The deficiency of each point, whatever the floor is.
pub fn deficiencies(map: &Map, lent: &Lent) -> Result<Vec<f64>, u8> {
    let [_, values, _] = below(map, lent)?;
    let rows = map.cell.rows;
    let at = |row| deficiency(rows, &values, row, map.gases);
    Ok((0..rows).map(at).collect())
}

/// What all five lent buffers become. Where a point has no ratio its place stays as lent.
pub fn graham_ratios(map: &Map, lent: &Lent) -> Result<Lent, u8> {
    let found = below(map, lent);
    check(map, lent, found.as_ref().err().copied())?;
    let [points, values, factors] = found?;
    let mut ratios = lent.floats[3].clone();
    let mut answers = vec![];
    for (row, place) in ratios.iter_mut().enumerate() {
        answers.push(match ratio(map, &values, row) {
            Ok(ratio) => {
                *place = ratio;
                0
            }
            Err(why) => why,
        });
    }
    Ok(Lent {
        floats: [points, values, factors, ratios],
        answers,
    })
}
