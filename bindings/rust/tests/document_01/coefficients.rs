//! Points scaled into their cell, and coefficients with their gradients at reference coordinates.

mod held;
mod pair;
mod refusals;

use bbfmm::Cell;

use crate::draw::Draw;
use crate::held::Tally;
pub use held::{coordinates, points};
use held::{asked_is_ruled, drawn, scaling_is_ruled};

/// A small cell, now and then with a shape that is refused.
pub fn small_cell(draw: &mut Draw) -> Cell {
    let dimension = draw.number(1..=3);
    let most = [16, 6, 3][dimension.clamp(1, 3) - 1];
    let order = if draw.one_in(16) {
        draw.one_of(&[0, 17, usize::MAX])
    } else {
        1 + draw.below(most)
    };
    // The slices tell how many points there are, so that too many must be lent.
    let rows = if draw.one_in(64) {
        4_097 + draw.below(2)
    } else {
        draw.below(6)
    };
    Cell {
        dimension,
        order,
        length: draw.cell_length(),
        rows,
    }
}

/// Large shapes: dimension, order and how many points.
const LARGE: [(usize, usize, usize); 8] = [
    (1, 1, 4_096),
    (1, 16, 4_096),
    (2, 2, 4_096),
    (2, 16, 40),
    (3, 1, 4_096),
    (3, 8, 9),
    (3, 15, 2),
    (3, 16, 3),
];

/// Six cells of each large shape.
pub fn large_cells(draw: &mut Draw) -> Vec<Cell> {
    let mut cell = |(dimension, order, rows): (usize, usize, usize)| Cell {
        dimension,
        order,
        length: draw.cell_length(),
        rows,
    };
    LARGE
        .iter()
        .flat_map(|shape| [*shape; 6])
        .map(&mut cell)
        .collect()
}

#[test]
fn small_cells_are_scaled_by_the_rule() {
    let mut draw = Draw::new(12);
    let mut tally = Tally::default();
    for _ in 0..16_000 {
        let cell = small_cell(&mut draw);
        let drawn = drawn(&mut draw, cell);
        scaling_is_ruled(&mut tally, drawn.frame(), &drawn.points);
    }
    tally.reached("scale_points", &[0, 1, 3, 7, 8, 9, 11]);
}

#[test]
fn large_cells_are_scaled_by_the_rule() {
    let mut draw = Draw::fitting(13);
    let mut tally = Tally::default();
    for cell in large_cells(&mut draw) {
        let drawn = drawn(&mut draw, cell);
        scaling_is_ruled(&mut tally, drawn.frame(), &drawn.points);
    }
    // A point beside the border of a cell far from 0 may round out of it.
    tally.reached("scale_points, large cells", &[0, 11]);
}

#[test]
fn small_cells_are_ruled() {
    let mut draw = Draw::new(71);
    let [mut of_values, mut of_gradients] = [Tally::default(), Tally::default()];
    for _ in 0..16_000 {
        let cell = small_cell(&mut draw);
        let drawn = drawn(&mut draw, cell);
        let coordinates = coordinates(&mut draw, drawn.points.len());
        let tally = match drawn.with_gradients {
            true => &mut of_gradients,
            false => &mut of_values,
        };
        asked_is_ruled(tally, &drawn.asked(&coordinates), &drawn.lent);
    }
    // No length is asked for without gradients, and no coordinate is out of the cell.
    of_values.reached("values", &[0, 1, 2, 3, 7, 9]);
    of_gradients.reached("values and gradients", &[0, 1, 2, 3, 7, 8, 9]);
}

#[test]
fn large_cells_are_ruled() {
    let mut draw = Draw::fitting(72);
    let mut tally = Tally::default();
    for cell in large_cells(&mut draw) {
        let drawn = drawn(&mut draw, cell);
        let coordinates = coordinates(&mut draw, drawn.points.len());
        asked_is_ruled(&mut tally, &drawn.asked(&coordinates), &drawn.lent);
    }
    tally.reached("large cells", &[0]);
}
