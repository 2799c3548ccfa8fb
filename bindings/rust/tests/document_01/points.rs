//! Target and source points.

use bbfmm::{Refusal, generate_chebyshev_source_points, generate_chebyshev_target_points};

use crate::draw::Draw;
use crate::held::Tally;
use crate::rule::points::{Block, points};

fn call(block: Block, nodes: &[f64], lent: &mut [f64]) -> Result<(), Refusal> {
    let Block {
        dimension,
        order,
        length,
        reference,
    } = block;
    match reference {
        None => generate_chebyshev_target_points(dimension, order, length, nodes, lent),
        Some(number) => {
            generate_chebyshev_source_points(dimension, order, length, number, nodes, lent)
        }
    }
}

fn points_are_ruled(draw: &mut Draw, tally: &mut Tally, block: Block) {
    let Block {
        dimension, order, ..
    } = block;
    let nodes = draw.lent(order.min(17));
    let (dimension, order) = (dimension.min(3), order.min(16));
    let before = [draw.lent(order.pow(dimension as u32) * dimension)];
    let mut lent = before.clone();
    let answer = call(block, &nodes, &mut lent[0]);
    let ruled = points(block, &nodes, &before[0]);
    tally.floats(&(block, &nodes), &answer, ruled, [&before, &lent]);
}

/// A block, of which most are small.
fn block(draw: &mut Draw) -> Block {
    let dimension = draw.number(1..=3);
    let order = draw.order(5);
    Block {
        dimension,
        order,
        length: draw.cell_length(),
        reference: None,
    }
}

#[test]
fn target_points_are_ruled() {
    let mut draw = Draw::new(9);
    let mut tally = Tally::default();
    for _ in 0..8_000 {
        let block = block(&mut draw);
        points_are_ruled(&mut draw, &mut tally, block);
    }
    tally.reached("generate_chebyshev_target_points", &[0, 1, 2, 7, 8]);
}

#[test]
fn source_points_are_ruled() {
    let mut draw = Draw::new(10);
    let mut tally = Tally::default();
    for _ in 0..8_000 {
        let mut block = block(&mut draw);
        let most = [1, 6, 15][block.dimension.clamp(1, 3) - 1];
        block.reference = Some(draw.number(0..=most));
        points_are_ruled(&mut draw, &mut tally, block);
    }
    tally.reached("generate_chebyshev_source_points", &[0, 1, 2, 5, 7, 8]);
}

#[test]
fn every_reference_has_its_points() {
    let mut draw = Draw::fitting(11);
    let mut tally = Tally::default();
    for (dimension, references) in [(1, 2), (2, 7), (3, 16)] {
        for reference in (0..references).map(Some).chain([None]) {
            for order in [1, 2, 3, 5, 8, 15, 16] {
                let length = draw.cell_length();
                let block = Block {
                    dimension,
                    order,
                    length,
                    reference,
                };
                points_are_ruled(&mut draw, &mut tally, block);
            }
        }
    }
    tally.reached("all references", &[0]);
}
