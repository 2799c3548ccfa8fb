//! The distances between the nodes of two blocks.

use bbfmm::{Refusal, sample_distances};

use crate::draw::{Draw, SPECIAL};
use crate::held::Tally;
use crate::rule::chebyshev::cosines;
use crate::rule::distances::{Lent, Pair, distances};
use crate::transfer::nodes;

/// All numbers with which the sampler refuses.
const FAULTS: [u8; 6] = [1, 2, 3, 5, 7, 8];

fn call(pair: Pair, nodes: &[f64], [sources, targets, block]: &mut Lent) -> Result<(), Refusal> {
    let Pair {
        dimension,
        order,
        length,
        reference,
    } = pair;
    sample_distances(
        dimension, order, length, reference, nodes, sources, targets, block,
    )
}

fn lent_is_ruled(tally: &mut Tally, pair: Pair, nodes: &[f64], before: &Lent) {
    let mut after = before.clone();
    let answer = call(pair, nodes, &mut after);
    let ruled = distances(pair, nodes, before);
    tally.floats(&(pair, nodes), &answer, ruled, [before, &after]);
}

/// How long the buffers are for so many nodes.
fn sizes(dimension: usize, count: usize) -> [usize; 3] {
    [count * dimension, count * dimension, count * count]
}

fn pair_is_ruled(draw: &mut Draw, tally: &mut Tally, pair: Pair, nodes: &[f64]) {
    let dimension = pair.dimension.min(3);
    let count = pair.order.min(16).pow(dimension as u32);
    // Too many nodes are refused whatever the buffers are: no need for large ones.
    let count = if count > 1_024 { 2 } else { count };
    let before = sizes(dimension, count).map(|size| draw.lent(size));
    lent_is_ruled(tally, pair, nodes, &before);
}

/// The number of the last reference vector.
fn last_reference(dimension: usize) -> usize {
    [1, 6, 15][dimension.clamp(1, 3) - 1]
}

#[test]
fn small_pairs_are_ruled() {
    let mut draw = Draw::new(25);
    let mut tally = Tally::default();
    for _ in 0..8_000 {
        let dimension = draw.number(1..=3);
        let most = [16, 6, 3][dimension.clamp(1, 3) - 1];
        let order = if draw.one_in(10) {
            draw.one_of(&[0, 11, 12, 16, 17, 1 << 32, usize::MAX])
        } else {
            1 + draw.below(most)
        };
        let pair = Pair {
            dimension,
            order,
            length: draw.cell_length(),
            reference: draw.number(0..=last_reference(dimension)),
        };
        let nodes = nodes(&mut draw, order);
        pair_is_ruled(&mut draw, &mut tally, pair, &nodes);
    }
    tally.reached("sample_distances", &[0, 1, 2, 3, 5, 7, 8]);
}

#[test]
fn every_reference_has_its_distances() {
    let mut draw = Draw::fitting(26);
    let mut tally = Tally::default();
    for dimension in 1..=3 {
        for reference in 0..=last_reference(dimension) {
            for order in [1, 2, 3, 4, 5] {
                let pair = Pair {
                    dimension,
                    order,
                    length: draw.cell_length(),
                    reference,
                };
                let nodes = nodes(&mut draw, order);
                pair_is_ruled(&mut draw, &mut tally, pair, &nodes);
            }
        }
    }
    tally.reached("all references", &[0]);
}

/// The orders with the most nodes, up to 1,000; with one more node an axis there are too many.
#[test]
fn large_pairs_are_ruled() {
    let mut draw = Draw::fitting(27);
    let mut tally = Tally::default();
    for (dimension, order) in [(1, 16), (2, 15), (2, 16), (3, 8), (3, 9), (3, 10), (3, 11)] {
        for _ in 0..3 {
            let pair = Pair {
                dimension,
                order,
                length: draw.cell_length(),
                reference: draw.number(0..=last_reference(dimension)),
            };
            let nodes = nodes(&mut draw, order);
            pair_is_ruled(&mut draw, &mut tally, pair, &nodes);
        }
    }
    tally.reached("large pairs", &[0, 3]);
}

/// Each special float at each place among true nodes, and at all places.
#[test]
fn special_nodes_are_ruled() {
    let mut draw = Draw::fitting(28);
    let mut tally = Tally::default();
    for special in SPECIAL {
        for place in 0..4 {
            for dimension in 1..=3 {
                let pair = Pair {
                    dimension,
                    order: 3,
                    length: draw.cell_length(),
                    reference: draw.number(0..=last_reference(dimension)),
                };
                let mut nodes = cosines(3);
                match nodes.get_mut(place) {
                    Some(node) => *node = special,
                    None => nodes.fill(special),
                }
                pair_is_ruled(&mut draw, &mut tally, pair, &nodes);
            }
        }
    }
    tally.reached("special nodes", &[0]);
}

/// Every set of faults, with buffers that fit where no length is a fault. Three wins over five.
#[test]
fn of_several_faults_the_lowest_is_told() {
    let mut draw = Draw::fitting(29);
    let mut tally = Tally::default();
    for set in 0..1 << FAULTS.len() {
        let is_chosen = |place: &usize| (set >> place) & 1 == 1;
        let places = (0..FAULTS.len()).filter(is_chosen);
        let faults: Vec<u8> = places.map(|place| FAULTS[place]).collect();
        let has = |number: u8| faults.contains(&number);
        let pair = Pair {
            dimension: if has(1) { 4 } else { 3 },
            order: match (has(2), has(3)) {
                (true, _) => 17,
                (false, true) => 11,
                (false, false) => 2,
            },
            length: if has(8) { 0.0 } else { 1.0 },
            reference: if has(5) { 16 } else { 15 },
        };
        // A dimension or an order outside its limits is refused whatever the buffers are: no need for
        // large ones.
        let side = if has(1) || has(2) { 2 } else { pair.order };
        let count = usize::pow(side, 3);
        let nodes = draw.floats(pair.order);
        let mut before = sizes(3, count).map(|size| draw.floats(size));
        before[2].truncate(count * count - usize::from(has(7)));
        lent_is_ruled(&mut tally, pair, &nodes, &before);
        let lowest = faults.first().copied();
        let told = distances(pair, &nodes, &before).err();
        assert_eq!(told, lowest, "the rule's number for {faults:?}");
    }
    tally.reached("every set of faults", &[0, 1, 2, 3, 5, 7, 8]);
}

/// Each buffer with no entry, with one too few and with one too many, among others that fit.
#[test]
fn every_length_is_asked() {
    let mut draw = Draw::fitting(30);
    let mut tally = Tally::default();
    for dimension in 1..=3 {
        let pair = Pair {
            dimension,
            order: 3,
            length: 1.0,
            reference: 1,
        };
        let [sources, targets, block] = sizes(dimension, 3usize.pow(dimension as u32));
        let right = [3, sources, targets, block];
        for (changed, fitting) in right.into_iter().enumerate() {
            for length in [0, fitting - 1, fitting + 1] {
                let mut lengths = right;
                lengths[changed] = length;
                let [nodes, sources, targets, block] = lengths.map(|length| draw.floats(length));
                lent_is_ruled(&mut tally, pair, &nodes, &[sources, targets, block]);
            }
        }
    }
    tally.reached("every length", &[7]);
}
