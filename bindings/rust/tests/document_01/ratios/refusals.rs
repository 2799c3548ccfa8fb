//! The refusals of Graham's ratio: every length, every set of faults, and no points.

use bbfmm::Cell;

use super::held::{Drawn, Met, air, call, drawn, true_polynomials};
use crate::draw::Draw;
use crate::rule::ratios::{Lent, graham_ratios};

/// All numbers with which the call refuses.
const FAULTS: [u8; 8] = [1, 2, 3, 7, 8, 9, 11, 12];

/// A map with this set of faults, by rising number.
fn faulty(draw: &mut Draw, faults: &[u8]) -> (Drawn, Lent) {
    let has = |number: u8| faults.contains(&number);
    let fitting = Cell {
        dimension: 2,
        order: 3,
        length: 1.0,
        rows: 4,
    };
    let mut drawn = Drawn {
        cell: fitting,
        floor: if has(12) { 0.0 } else { 0.1 },
        centre: vec![0.0; 2],
        node_polynomials: true_polynomials(3),
        fields: air(draw, 9),
    };
    let mut before = drawn.lend(draw);
    if has(9) {
        before.floats[0][0] = f64::INFINITY;
    }
    if has(11) {
        before.floats[0][7] = 0.75;
    }
    if has(7) {
        before.answers.push(9);
    }
    // With these no buffer fits, and their own numbers come first.
    drawn.cell = Cell {
        dimension: if has(1) { 4 } else { 2 },
        order: if has(2) { 17 } else { 3 },
        length: if has(8) { 0.0 } else { 1.0 },
        rows: if has(3) { 4_097 } else { 4 },
    };
    (drawn, before)
}

#[test]
fn of_several_faults_the_lowest_is_told() {
    let mut draw = Draw::fitting(45);
    let mut met = Met::default();
    for set in 0..1 << FAULTS.len() {
        let is_chosen = |place: &usize| (set >> place) & 1 == 1;
        let places = (0..FAULTS.len()).filter(is_chosen);
        let faults: Vec<u8> = places.map(|place| FAULTS[place]).collect();
        let (drawn, before) = faulty(&mut draw, &faults);
        met.is_ruled(&drawn.map(), &before);
        let told = graham_ratios(&drawn.map(), &before).err();
        assert_eq!(told, faults.first().copied(), "the rule's number");
    }
    met.tally
        .reached("every set of faults", &[0, 1, 2, 3, 7, 8, 9, 11, 12]);
}

/// Each of the ten buffers with no entry, with one too few and with one too many, among others that fit.
#[test]
fn every_length_is_asked() {
    let mut draw = Draw::fitting(46);
    let mut met = Met::default();
    for dimension in 1..=3 {
        let cell = Cell {
            dimension,
            order: 3,
            length: 1.0,
            rows: 4,
        };
        let fitting = drawn(&mut draw, cell);
        let lent = fitting.lend(&mut draw);
        for place in 0..10 {
            for change in 0..3 {
                let (mut drawn, mut before) = (fitting.clone(), lent.clone());
                let changed = |length: usize| [0, length - 1, length + 1][change];
                let list = match place {
                    0 => &mut drawn.centre,
                    1 => &mut drawn.node_polynomials,
                    2..5 => &mut drawn.fields[place - 2],
                    5..9 => &mut before.floats[place - 5],
                    _ => {
                        before.answers.resize(changed(4), 9);
                        met.is_ruled(&drawn.map(), &before);
                        continue;
                    }
                };
                list.resize(changed(list.len()), 0.25);
                met.is_ruled(&drawn.map(), &before);
            }
        }
    }
    met.tally.reached("every length", &[7]);
}

/// Without a point nothing is written, and a bad floor is refused all the same.
#[test]
fn no_points_are_ruled() {
    let mut draw = Draw::fitting(43);
    let mut met = Met::default();
    for dimension in 1..=3 {
        for floor in [0.1, 5e-324, 0.0, -0.0, -0.1, f64::INFINITY, f64::NAN] {
            let cell = Cell {
                dimension,
                order: 3,
                length: 1.0,
                rows: 0,
            };
            let drawn = Drawn {
                floor,
                ..drawn(&mut draw, cell)
            };
            let before = drawn.lend(&mut draw);
            met.is_ruled(&drawn.map(), &before);
            let is_floor = floor == 0.1 || floor == 5e-324;
            let answer = call(&drawn.map(), &mut before.clone());
            assert_eq!(answer.is_ok(), is_floor, "{floor}");
        }
    }
    met.tally.reached("no points", &[0, 12]);
}
