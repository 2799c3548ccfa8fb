//! Nodes, polynomials and their derivatives.

use std::cmp::Ordering;

use bbfmm::{evaluate_chebyshev_polynomials, generate_chebyshev_nodes, generate_node_set};

use crate::draw::Draw;
use crate::held::{Tally, bits};
use crate::rule;
use crate::rule::chebyshev::{cosines, evaluate};

/// What the Rust that was ported answers, written down: the line of an order begins with 'nodes'
/// and its number.
const WRITTEN: &str = include_str!("../../../../tests/replay/chebyshev.out");

/// The nodes of an order as the Rust's bits.
fn written(order: usize) -> Vec<u64> {
    let start = format!("nodes {order}: ");
    let line = WRITTEN.lines().find_map(|line| line.strip_prefix(&start));
    let words = line.expect("a line for each order").split_whitespace();
    words
        .map(|word| u64::from_str_radix(word, 16).expect("hex"))
        .collect()
}

#[test]
fn nodes_are_those_of_the_rust() {
    for order in 1..=16 {
        let mut nodes = vec![f64::NAN; order];
        generate_chebyshev_nodes(order, &mut nodes).expect("an order");
        assert_eq!(bits(&nodes), written(order), "order {order}");
        for (node, cosine) in nodes.iter().zip(cosines(order)) {
            assert!((node - cosine).abs() <= f64::EPSILON, "order {order}");
        }
    }
}

#[test]
fn nodes_are_refused() {
    let mut draw = Draw::new(3);
    let mut tally = Tally::default();
    for _ in 0..4_000 {
        let order = draw.number(1..=16);
        let before = [draw.lent(order.min(17))];
        let mut lent = before.clone();
        let answer = generate_chebyshev_nodes(order, &mut lent[0]);
        let faults = [rule::bad_length(&lent[0], &[order]), rule::bad_order(order)];
        let written = || [written(order).into_iter().map(f64::from_bits).collect()];
        let ruled = rule::refusal(&faults).map(|()| written());
        tally.floats(&order, &answer, ruled, [&before, &lent]);
    }
    tally.reached("generate_chebyshev_nodes", &[0, 2, 7]);
}

/// The nodes of an order in a set, from the Rust's bits: those of set 1 are mirrored.
fn of_set(order: usize, set: usize) -> Vec<f64> {
    let rusts: Vec<f64> = written(order).into_iter().map(f64::from_bits).collect();
    if set == 0 {
        return rusts;
    }
    let mirrored = |i: usize| match (2 * i + 1).cmp(&order) {
        Ordering::Less => -rusts[order - 1 - i],
        Ordering::Equal => 0.0,
        Ordering::Greater => rusts[i],
    };
    (0..order).map(mirrored).collect()
}

#[test]
fn sets_are_made_from_the_rusts_nodes() {
    for order in 1..=16 {
        for set in 0..=1 {
            let mut nodes = vec![f64::NAN; order];
            generate_node_set(order, set, &mut nodes).expect("a set");
            assert_eq!(
                bits(&nodes),
                bits(&of_set(order, set)),
                "order {order}, set {set}"
            );
        }
    }
}

#[test]
fn sets_are_refused() {
    let mut draw = Draw::new(23);
    let mut tally = Tally::default();
    for _ in 0..6_000 {
        let order = draw.number(1..=16);
        let set = draw.number(0..=1);
        let before = [draw.lent(order.min(17))];
        let mut lent = before.clone();
        let answer = generate_node_set(order, set, &mut lent[0]);
        let faults = [
            (17, set > 1),
            rule::bad_length(&lent[0], &[order]),
            rule::bad_order(order),
        ];
        let ruled = rule::refusal(&faults).map(|()| [of_set(order, set)]);
        tally.floats(&(order, set), &answer, ruled, [&before, &lent]);
    }
    tally.reached("generate_node_set", &[0, 2, 7, 17]);
}

/// Few points, or as many as may be, or one more.
fn count(draw: &mut Draw) -> usize {
    match draw.below(120) {
        0 => 4_096,
        1 => 4_097,
        _ => draw.below(30),
    }
}

#[test]
fn polynomials_are_ruled() {
    let mut draw = Draw::new(4);
    let mut tally = Tally::default();
    for _ in 0..6_000 {
        let order = draw.number(1..=16);
        let count = count(&mut draw);
        let points = draw.floats(count);
        let right = points.len() * order.min(17);
        let wanted = draw.one_in(2);
        let unwanted = vec![];
        let before = [
            draw.lent(right),
            if wanted { draw.lent(right) } else { unwanted },
        ];
        let mut lent = before.clone();
        let [tn, dtn] = &mut lent;
        let dtn = wanted.then_some(dtn.as_mut_slice());
        let answer = evaluate_chebyshev_polynomials(order, &points, tn, dtn);
        let ruled = evaluate(order, &points, [&before[0], &before[1]], wanted);
        tally.floats(&(order, &points, wanted), &answer, ruled, [&before, &lent]);
    }
    tally.reached("evaluate_chebyshev_polynomials", &[0, 2, 3, 7]);
}
