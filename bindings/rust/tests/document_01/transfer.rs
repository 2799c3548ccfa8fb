//! The operators between a block and its children, and the tensor transfer.

use bbfmm::{apply_cheb_tensor_transfer, generate_chebyshev_nodes, get_m2m_transfer_operators};

use crate::draw::Draw;
use crate::held::{Tally, same_floats};
use crate::rule::transfer::{Move, operators, transfer};

/// Nodes: the true ones of the order, or any floats.
pub fn nodes(draw: &mut Draw, order: usize) -> Vec<f64> {
    let mut nodes = draw.lent(order.min(17));
    if draw.one_in(2) {
        // A refusal leaves the drawn ones.
        let _ = generate_chebyshev_nodes(order, &mut nodes);
    }
    nodes
}

#[test]
fn operators_are_ruled() {
    let mut draw = Draw::new(5);
    let mut tally = Tally::default();
    for _ in 0..6_000 {
        let order = draw.number(1..=16);
        let nodes = nodes(&mut draw, order);
        let square = order.min(17).pow(2);
        let polynomials = draw.lent(square);
        let before = [draw.lent(2 * square)];
        let mut lent = before.clone();
        let answer = get_m2m_transfer_operators(order, &nodes, &polynomials, &mut lent[0]);
        let ruled = operators(order, &nodes, &polynomials, &before[0]);
        tally.floats(
            &(order, &nodes, &polynomials),
            &answer,
            ruled,
            [&before, &lent],
        );
    }
    tally.reached("get_m2m_transfer_operators", &[0, 2, 7]);
}

#[test]
fn buffers_that_are_only_read_may_be_one() {
    let mut draw = Draw::new(6);
    let mut tally = Tally::default();
    for _ in 0..500 {
        let both = draw.floats(1);
        let before = [draw.lent(2)];
        let mut lent = before.clone();
        let answer = get_m2m_transfer_operators(1, &both, &both, &mut lent[0]);
        let ruled = operators(1, &both, &both, &before[0]);
        tally.floats(&both, &answer, ruled, [&before, &lent]);
    }
    tally.reached("get_m2m_transfer_operators", &[0, 7]);
}

/// Asks for one move of drawn values, and holds both buffers and the one that is answered to the
/// rule.
fn move_is_ruled(draw: &mut Draw, tally: &mut Tally, moved: Move) {
    let Move {
        dimension,
        order,
        child,
        transpose,
    } = moved;
    let nodes = order.min(16).pow(dimension.min(3) as u32);
    let input = draw.lent(nodes);
    let operators = draw.lent(2 * order.min(16).pow(2));
    let before = [draw.lent(nodes), draw.lent(nodes)];
    let mut lent = before.clone();
    let [first, second] = &mut lent;
    let answer = apply_cheb_tensor_transfer(
        dimension, order, child, transpose, &input, &operators, first, second,
    );
    let answer = answer.map(|result| result.to_vec());
    let ruled = transfer(moved, &input, &operators, &before);
    tally.floats(
        &(moved, &input, &operators),
        &answer,
        ruled,
        [&before, &lent],
    );
    if let Ok(result) = answer {
        let place = usize::from(dimension != 2);
        assert!(
            same_floats(&result, &lent[place]),
            "the buffer that {moved:?} answers"
        );
    }
}

#[test]
fn every_move_is_ruled() {
    let mut draw = Draw::fitting(7);
    let mut tally = Tally::default();
    for dimension in 1..=3 {
        for order in 1..=16 {
            for way in 0..2 << dimension {
                let (child, transpose) = (way / 2, way % 2 == 1);
                let moved = Move {
                    dimension,
                    order,
                    child,
                    transpose,
                };
                move_is_ruled(&mut draw, &mut tally, moved);
            }
        }
    }
    tally.reached("all moves", &[0]);
}

#[test]
fn drawn_moves_are_ruled() {
    let mut draw = Draw::new(8);
    let mut tally = Tally::default();
    for _ in 0..20_000 {
        let dimension = draw.number(1..=3);
        let most = [16, 8, 4][dimension.clamp(1, 3) - 1];
        let order = draw.order(most);
        let child = draw.number(0..=(1 << dimension.min(3)) - 1);
        let transpose = draw.one_in(2);
        let moved = Move {
            dimension,
            order,
            child,
            transpose,
        };
        move_is_ruled(&mut draw, &mut tally, moved);
    }
    tally.reached("apply_cheb_tensor_transfer", &[0, 1, 2, 5, 7]);
}
