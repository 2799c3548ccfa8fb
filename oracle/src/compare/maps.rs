//! Draws the maps of which Graham's ratios are asked: gases of any floats, and air with a floor at the
//! deficiency of a point or beside it.

use super::{cases, draw};
use crate::floats::Stream;
use crate::operators::true_nodes;
use crate::random::Random;
use crate::ratio_rule::{Gases, Map, deficiencies};
use crate::ratios;

/// Floors that a caller would give, in per cent, and the least and the largest that are taken.
const FLOORS: [f64; 6] = [1e-6, 0.1, 0.5, 13.0, f64::from_bits(1), f64::MAX];

/// A floor that the call takes: one of a list, or any float that is finite and above 0.
fn floor(random: &mut Random) -> f64 {
    let any = draw::floats(random, 1)[0].abs();
    match any.is_finite() && any > 0.0 && random.below(2) == 0 {
        true => any,
        false => random.one_of(&FLOORS),
    }
}

/// Gases of any floats, each of a sort of its own.
pub fn any(random: &mut Random, stream: &mut Stream) {
    let cell = cases::cell(random, false);
    let nodes = cell.order.pow(cell.dimension as u32);
    let gases = Gases {
        carbon_monoxide: draw::floats(random, nodes),
        nitrogen: draw::floats(random, nodes),
        oxygen: draw::floats(random, nodes),
    };
    let floor = floor(random);
    ratios::ask(stream, &Map { cell, floor, gases });
}

/// Air at the nodes, in per cent. The deficiency is as small as in fresh air or as large as in an old goaf,
/// and of either sign.
fn air_at(random: &mut Random, nodes: usize) -> Gases {
    let most = random.one_of(&[1e-4, 0.2, 15.0]);
    let percent = |unit: f64| 79.04 + 7.0 * unit.abs();
    let nitrogen: Vec<f64> = random.units(nodes).into_iter().map(percent).collect();
    let missing = random.units(nodes).into_iter().map(|unit| most * unit);
    let oxygen = nitrogen.iter().zip(missing);
    Gases {
        carbon_monoxide: random.units(nodes).iter().map(|unit| 0.01 * unit).collect(),
        oxygen: oxygen.map(|(n2, missing)| 0.265 * n2 - missing).collect(),
        nitrogen,
    }
}

/// Makes one entry of one gas any float, as a reading that failed would.
fn spoil(random: &mut Random, gases: &mut Gases) {
    let place = random.below(gases.oxygen.len());
    let float = draw::floats(random, 1)[0];
    let gas = match random.below(3) {
        0 => &mut gases.carbon_monoxide,
        1 => &mut gases.nitrogen,
        _ => &mut gases.oxygen,
    };
    gas[place] = float;
}

/// A deficiency of the map's, or a step of the last bit beside it, if it can be a floor.
fn floor_at(random: &mut Random, map: &Map) -> Option<f64> {
    let deficiencies = deficiencies(map);
    if deficiencies.is_empty() {
        return None;
    }
    let at = random.one_of(&deficiencies);
    let floor = random.one_of(&[at.next_down(), at, at.next_up()]);
    (floor.is_finite() && floor > 0.0).then_some(floor)
}

/// Air over the true nodes of the order, of which one entry in some cases is spoilt.
pub fn air(random: &mut Random, stream: &mut Stream) {
    let mut cell = cases::cell(random, false);
    cell.node_polynomials = true_nodes(cell.order).1;
    let mut gases = air_at(random, cell.order.pow(cell.dimension as u32));
    if random.below(4) == 0 {
        spoil(random, &mut gases);
    }
    let floor = floor(random);
    let mut map = Map { cell, floor, gases };
    if random.below(3) != 0 {
        map.floor = floor_at(random, &map).unwrap_or(map.floor);
    }
    ratios::ask(stream, &map);
}
