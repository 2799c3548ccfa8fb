//! Graham's ratio: the answer and the ratio of each point, and all that is lent.

mod held;
mod refusals;

use bbfmm::{Air, Cell, get_approximation_coefficients, scale_points};

use crate::draw::{Draw, SPECIAL};
use crate::held::same_floats;
use crate::rule::ratios::{Lent, Map, deficiencies};
use held::{Drawn, Met, air, call, drawn, true_polynomials};

/// A cell of this shape, of a drawn length.
fn cell(draw: &mut Draw, dimension: usize, order: usize, rows: usize) -> Cell {
    Cell {
        dimension,
        order,
        length: draw.cell_length(),
        rows,
    }
}

/// A small cell that fits, with a point at least.
fn small_cell(draw: &mut Draw) -> Cell {
    let dimension = 1 + draw.below(3);
    let order = 1 + draw.below([9, 5, 3][dimension - 1]);
    let rows = 1 + draw.below(6);
    cell(draw, dimension, order, rows)
}

#[test]
fn small_maps_are_ruled() {
    let mut draw = Draw::new(39);
    let mut met = Met::default();
    for _ in 0..16_000 {
        let dimension = draw.number(1..=3);
        let most = [16, 6, 3][dimension.clamp(1, 3) - 1];
        let order = if draw.one_in(16) {
            draw.one_of(&[0, 17, usize::MAX])
        } else {
            1 + draw.below(most)
        };
        let rows = if draw.one_in(16) {
            draw.one_of(&[4_097, usize::MAX])
        } else {
            draw.below(6)
        };
        let cell = cell(&mut draw, dimension, order, rows);
        let drawn = drawn(&mut draw, cell);
        let before = drawn.lend(&mut draw);
        met.is_ruled(&drawn.map(), &before);
    }
    met.answered(1_000);
    met.tally
        .reached("graham_ratios", &[0, 1, 2, 3, 7, 8, 9, 11, 12]);
}

#[test]
fn large_maps_are_ruled() {
    let mut draw = Draw::fitting(40);
    let mut met = Met::default();
    for (dimension, order, rows) in [
        (1, 1, 4_096),
        (1, 16, 4_096),
        (2, 2, 4_096),
        (2, 16, 40),
        (3, 1, 4_096),
        (3, 8, 9),
        (3, 15, 2),
        (3, 16, 3),
    ] {
        for _ in 0..6 {
            let cell = cell(&mut draw, dimension, order, rows);
            let drawn = drawn(&mut draw, cell);
            let before = drawn.lend(&mut draw);
            met.is_ruled(&drawn.map(), &before);
        }
    }
    met.answered(1_000);
    // A point beside the border of a cell far from 0 may round out of it.
    met.tally.reached("large maps", &[0, 11]);
}

/// The floor at the deficiency of a point, and a step of the last bit on both sides of it: the air is
/// fresh only where the floor is above.
#[test]
fn at_the_floor_there_is_a_ratio() {
    let mut draw = Draw::fitting(41);
    let mut met = Met::default();
    let mut asked = 0;
    for _ in 0..6_000 {
        let cell = small_cell(&mut draw);
        let mut drawn = drawn(&mut draw, cell);
        let before = drawn.lend(&mut draw);
        let row = draw.below(cell.rows);
        let found = deficiencies(&drawn.map(), &before);
        // None where rounding put a point out of its cell.
        let Some(at) = found.ok().map(|list| list[row]) else {
            continue;
        };
        if !at.is_finite() || at <= 0.0 {
            continue;
        }
        for (floor, is_fresh) in [(at.next_down(), false), (at, false), (at.next_up(), true)] {
            if floor > 0.0 && floor.is_finite() {
                drawn.floor = floor;
                let after = met.is_ruled(&drawn.map(), &before);
                let said = after.answers[row] == Air::Fresh.number();
                assert_eq!(said, is_fresh, "deficiency {at:e}, floor {floor:e}");
                asked += 1;
            }
        }
    }
    println!("floors at a deficiency and beside it: {asked}");
    assert!(asked > 3_000, "{asked}");
    met.answered(1_000);
    met.tally.reached("at the floor", &[0]);
}

/// One node, and one point: a gas at the point is its entry, but for -0.0, which becomes 0.0.
fn of_one_node(floor: f64, gases: [f64; 3]) -> (Drawn, Lent) {
    let cell = Cell {
        dimension: 1,
        order: 1,
        length: 2.0,
        rows: 1,
    };
    let drawn = Drawn {
        cell,
        floor,
        centre: vec![0.0],
        node_polynomials: vec![1.0],
        fields: gases.map(|gas| vec![gas]),
    };
    let lent = Lent {
        floats: [vec![0.5], vec![7.0], vec![7.0], vec![7.0]],
        answers: vec![9],
    };
    (drawn, lent)
}

/// Every three special floats, or floats of air, as the gases of a point, at several floors.
#[test]
fn every_three_special_gases_are_ruled() {
    let list = [&SPECIAL[..], &[0.0001, 20.93, 79.04, -13.0]].concat();
    let deficiency: f64 = 0.265 * 79.04 - 20.93;
    let mut met = Met::default();
    for floor in [5e-324, deficiency, deficiency.next_up(), 0.1, f64::MAX] {
        for carbon_monoxide in &list {
            for nitrogen in &list {
                for oxygen in &list {
                    let (drawn, lent) = of_one_node(floor, [*carbon_monoxide, *nitrogen, *oxygen]);
                    met.is_ruled(&drawn.map(), &lent);
                }
            }
        }
    }
    met.answered(1_000);
    met.tally.reached("every three special gases", &[0]);
}

/// Each special float at each node of each gas, and at all of its nodes, among air.
#[test]
fn special_fields_are_ruled() {
    let mut draw = Draw::fitting(42);
    let mut met = Met::default();
    for special in SPECIAL {
        for gas in 0..3 {
            for place in 0..=9 {
                let cell = Cell {
                    dimension: 2,
                    order: 3,
                    length: 2.0,
                    rows: 5,
                };
                let mut drawn = Drawn {
                    cell,
                    floor: 0.1,
                    centre: vec![0.0; 2],
                    node_polynomials: true_polynomials(3),
                    fields: air(&mut draw, 9),
                };
                match drawn.fields[gas].get_mut(place) {
                    Some(entry) => *entry = special,
                    None => drawn.fields[gas].fill(special),
                }
                let before = drawn.lend(&mut draw);
                met.is_ruled(&drawn.map(), &before);
            }
        }
    }
    met.answered(100);
    met.tally.reached("special fields", &[0]);
}

/// The room that is lent ends as scaling and the coefficient call leave it.
#[test]
fn the_room_is_that_of_the_coefficients() {
    let mut draw = Draw::new(44);
    let mut both = 0;
    for _ in 0..3_000 {
        let cell = small_cell(&mut draw);
        let drawn = drawn(&mut draw, cell);
        let Map {
            centre,
            node_polynomials,
            ..
        } = drawn.map();
        let before = drawn.lend(&mut draw);
        let mut after = before.clone();
        if call(&drawn.map(), &mut after).is_err() {
            continue;
        }
        let [mut points, mut values, mut factors, _] = before.floats;
        scale_points(cell.dimension, cell.length, centre, &mut points)
            .expect("what ratios are given for is in the cell");
        get_approximation_coefficients(
            cell.dimension,
            cell.order,
            node_polynomials,
            &points,
            &mut values,
            &mut factors,
            None,
        )
        .expect("what ratios are given for has coefficients");
        for (left, right) in after.floats.iter().zip([points, values, factors]) {
            assert!(same_floats(left, &right), "{cell:?}");
        }
        both += 1;
    }
    println!("ratios and coefficients: {both}");
    assert!(both > 1_000, "{both}");
}

/// Two places of docs/EVIDENCE.md, in per cent: an old goaf, and fresh air.
#[test]
fn fresh_air_has_no_ratio() {
    let (goaf, mut lent) = of_one_node(0.1, [0.0060, 86.00, 9.79]);
    assert_eq!(call(&goaf.map(), &mut lent), Ok(()));
    assert_eq!(lent.answers, [Air::Ratio.number()]);
    assert_eq!(format!("{:.3}", lent.floats[3][0]), "0.046");

    let (fresh, mut lent) = of_one_node(0.1, [0.0001, 79.04, 20.93]);
    assert_eq!(call(&fresh.map(), &mut lent), Ok(()));
    assert_eq!(lent.answers, [Air::Fresh.number()]);
    assert_eq!(lent.floats[3], [7.0]);

    // The same air with a floor below its deficiency of 0.0156, and then without carbon monoxide.
    let (low, mut lent) = of_one_node(1e-6, [0.0001, 79.04, 20.93]);
    assert_eq!(call(&low.map(), &mut lent), Ok(()));
    assert_eq!(format!("{:.3}", lent.floats[3][0]), "0.641");
    let (none, mut lent) = of_one_node(0.1, [f64::NAN, 79.04, 20.93]);
    assert_eq!(call(&none.map(), &mut lent), Ok(()));
    assert_eq!(lent.answers, [Air::Fresh.number()]);
}

/// Buffers that are only read may be one and the same.
#[test]
fn gases_may_be_one_buffer() {
    let (drawn, before) = of_one_node(0.1, [-2.0; 3]);
    let mut map = drawn.map();
    map.gases.carbon_monoxide = map.gases.oxygen;
    map.gases.nitrogen = map.gases.oxygen;
    let mut met = Met::default();
    let after = met.is_ruled(&map, &before);
    assert_eq!(after.answers, [Air::Ratio.number()]);
}
