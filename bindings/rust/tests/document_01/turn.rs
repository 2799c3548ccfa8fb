//! Vectors, references and tables.

use bbfmm::{combined_permutation, follow_node, inverse_permutation, look_up, reference_vector};

use crate::draw::Draw;
use crate::held::Tally;
use crate::rule::turn as rule;
use crate::rule::{indices, node};

/// More than all dimensions.
const DIMENSIONS: [usize; 7] = [0, 1, 2, 3, 4, 5, usize::MAX];
/// More than all entries of a vector.
const ENTRIES: [i32; 13] = [i32::MIN, -4, -3, -2, -1, 0, 1, 2, 3, 4, 7, 256, i32::MAX];

#[test]
fn every_vector_is_looked_up() {
    let mut tally = Tally::default();
    for case in 0..DIMENSIONS.len() * ENTRIES.len().pow(3) {
        let entry = |place: u32| ENTRIES[case / ENTRIES.len().pow(place) % ENTRIES.len()];
        let vector = [entry(0), entry(1), entry(2)];
        let dimension = DIMENSIONS[case / ENTRIES.len().pow(3)];
        let answer = look_up(dimension, vector);
        let ruled = rule::look_up(dimension, vector);
        if let Some(expected) = tally.number(&(dimension, vector), &answer, ruled) {
            let entry = answer.expect("it is no refusal");
            let found = (entry.index, entry.case, entry.reference, entry.near);
            assert_eq!(found, expected, "{vector:?}");
        }
    }
    tally.reached("look_up", &[0, 1, 4, 6]);
}

#[test]
fn nodes_are_followed() {
    let mut draw = Draw::new(16);
    let mut tally = Tally::default();
    for _ in 0..20_000 {
        let dimension = draw.number(1..=3);
        let order = draw.order(6);
        let nodes = order.min(17).pow(dimension.min(3) as u32);
        let most = dimension.min(3);
        let mut vector = [0; 3];
        for (axis, entry) in vector.iter_mut().enumerate() {
            *entry = match draw.below(60) {
                0 => draw.one_of(&ENTRIES),
                _ if axis < most => draw.below(7) as i32 - 3,
                _ => 0,
            };
        }
        let node = draw.number(0..=nodes.saturating_sub(1));
        let answer = follow_node(dimension, order, vector, node);
        let ruled = rule::follow_node(dimension, order, vector, node);
        let case = (dimension, order, vector, node);
        if let Some(expected) = tally.number(&case, &answer, ruled) {
            let moves = answer.expect("it is no refusal");
            assert_eq!((moves.image, moves.origin), expected, "{case:?}");
        }
    }
    tally.reached("follow_node", &[0, 1, 2, 4, 5, 6]);
}

#[test]
fn every_reference_vector_is_told() {
    let mut tally = Tally::default();
    for dimension in DIMENSIONS {
        for number in (0..40).chain([usize::MAX - 1, usize::MAX]) {
            let answer = reference_vector(dimension, number);
            let ruled = rule::reference_vector(dimension, number);
            if let Some(expected) = tally.number(&(dimension, number), &answer, ruled) {
                assert_eq!(answer, Ok(expected));
            }
        }
    }
    tally.reached("reference_vector", &[0, 1, 5]);
}

/// Both tables of a case, in lent buffers that come full of a pattern.
fn tables_are_ruled(tally: &mut Tally, case: [usize; 3], lent: Vec<u16>) {
    let [dimension, order, number] = case;
    let ruled = rule::tables(dimension, order, number, &lent);
    let calls = [combined_permutation, inverse_permutation];
    for (place, call) in calls.into_iter().enumerate() {
        let mut table = lent.clone();
        let answer = call(dimension, order, number, &mut table);
        match tally.number(&case, &answer, ruled.clone()) {
            Some(expected) => assert_eq!(table, expected[place], "{case:?}"),
            None => assert_eq!(table, lent, "{case:?}"),
        }
    }
}

#[test]
fn every_table_is_ruled() {
    let mut tally = Tally::default();
    for dimension in 1..=3 {
        for order in 1..=16usize {
            for case in 0..[2, 8, 48][dimension - 1] {
                let lent = vec![0xa5a5; order.pow(dimension as u32)];
                tables_are_ruled(&mut tally, [dimension, order, case], lent);
            }
        }
    }
    tally.reached("all tables", &[0]);
}

#[test]
fn tables_are_refused() {
    let mut draw = Draw::new(1);
    let mut tally = Tally::default();
    for _ in 0..20_000 {
        let dimension = draw.number(1..=3);
        let order = draw.order(4);
        let case = draw.number(0..=[1, 7, 47][dimension.clamp(1, 3) - 1]);
        let lent = draw.lent_list(order.min(17).pow(dimension.min(3) as u32));
        tables_are_ruled(&mut tally, [dimension, order, case], lent);
    }
    tally.reached("tables", &[0, 1, 2, 5, 7]);
}

/// Positions, alike on every axis, where reversing an index negates its position.
fn positions(draw: &mut Draw, order: usize) -> Vec<i64> {
    let mut positions = vec![0; order];
    for index in 0..order / 2 {
        positions[index] = draw.below(2_000) as i64 - 1_000;
        positions[order - 1 - index] = -positions[index];
    }
    positions
}

/// A node's position on each axis, and 0 past them.
fn place(dimension: usize, positions: &[i64], node: usize) -> [i64; 3] {
    let mut place = [0; 3];
    for (axis, index) in indices(dimension, positions.len(), node)
        .into_iter()
        .enumerate()
    {
        place[axis] = positions[index];
    }
    place
}

/// The size of a distance on one axis: twice the entry, plus source position, less target position.
fn distance(entry: i32, source: i64, target: i64) -> i64 {
    (2 * i64::from(entry) + source - target).abs()
}

/// Demand 3 for one vector: between any two nodes, the table keeps the distance on every matching
/// axis.
fn keeps_distances(vector: &[i32], order: usize, positions: &[i64]) {
    let dimension = vector.len();
    let mut padded = [0; 3];
    padded[..dimension].copy_from_slice(vector);
    let entry = look_up(dimension, padded).expect("a vector");
    let reference = reference_vector(dimension, entry.reference).expect("a reference");
    assert_eq!(
        reference[..dimension],
        rule::sorted_sizes(vector),
        "{vector:?}"
    );
    let mut table = vec![0; order.pow(dimension as u32)];
    combined_permutation(dimension, order, entry.case, &mut table).expect("a case");
    let places = (0..table.len()).map(|node| place(dimension, positions, node));
    let places: Vec<[i64; 3]> = places.collect();
    let turned = |node: usize| places[usize::from(table[node])];
    let axes = rule::axis_order(vector);
    for (source, target) in pairs(table.len()) {
        for (m, &axis) in axes.iter().enumerate() {
            let before = distance(reference[m], places[source][m], places[target][m]);
            let after = distance(vector[axis], turned(source)[axis], turned(target)[axis]);
            assert_eq!(
                before, after,
                "{vector:?}, order {order}, nodes {source} and {target}"
            );
        }
    }
}

/// All pairs of numbers below a count.
fn pairs(count: usize) -> impl Iterator<Item = (usize, usize)> {
    (0..count).flat_map(move |source| (0..count).map(move |target| (source, target)))
}

#[test]
fn turning_keeps_every_distance() {
    let mut draw = Draw::new(2);
    for (dimension, most) in [(1, 16), (2, 8), (3, 4)] {
        let mut vectors = rule::vectors(dimension);
        vectors.retain(|vector| vector.iter().any(|entry| entry.abs() >= 2));
        for order in 1..=most {
            let positions = positions(&mut draw, order);
            for vector in &vectors {
                keeps_distances(vector, order, &positions);
            }
        }
    }
}

#[test]
fn nodes_and_indices_agree() {
    for place in 0..125 {
        assert_eq!(node(5, &indices(3, 5, place)), place);
    }
    assert_eq!(indices(3, 5, 7), [0, 1, 2]);
}
