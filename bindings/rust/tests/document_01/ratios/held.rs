//! Draws the maps that are asked for, and holds Graham's ratios to the rule, with all that is lent, and
//! to what every answer means.

use bbfmm::{Air, Cell, Gases, Refusal, graham_ratios};

use crate::coefficients::points;
use crate::draw::{Draw, SPECIAL};
use crate::held::{Tally, bits, same_floats};
use crate::rule::chebyshev::{cosines, polynomials};
use crate::rule::ratios::{self as rule, Lent, Map};

/// The expansions of carbon monoxide, nitrogen and oxygen.
pub type Fields = [Vec<f64>; 3];

/// What a map is made of.
#[derive(Clone)]
pub struct Drawn {
    pub cell: Cell,
    pub floor: f64,
    pub centre: Vec<f64>,
    pub node_polynomials: Vec<f64>,
    pub fields: Fields,
}

impl Drawn {
    pub fn map(&self) -> Map<'_> {
        let [carbon_monoxide, nitrogen, oxygen] = &self.fields;
        Map {
            cell: self.cell,
            floor: self.floor,
            centre: &self.centre,
            node_polynomials: &self.node_polynomials,
            gases: Gases {
                carbon_monoxide,
                nitrogen,
                oxygen,
            },
        }
    }

    /// Draws what is lent, now and then of another length than it should be. Too many rows are refused
    /// whatever the buffers are: no need for large ones.
    pub fn lend(&self, draw: &mut Draw) -> Lent {
        let (dimension, order, nodes) = shape(self.cell);
        let rows = if self.cell.rows > 4_096 {
            2
        } else {
            self.cell.rows
        };
        let length = draw.length(rows * dimension);
        Lent {
            floats: [
                points(draw, self.cell, &self.centre, length),
                draw.lent(rows * nodes),
                draw.lent(rows * dimension * order),
                draw.lent(rows),
            ],
            answers: draw.lent_bytes(rows),
        }
    }
}

/// The dimension and the order, no larger than their limits, and N.
fn shape(cell: Cell) -> (usize, usize, usize) {
    let (dimension, order) = (cell.dimension.min(3), cell.order.min(16));
    (dimension, order, order.pow(dimension as u32))
}

/// T_k at the nodes of an order.
pub fn true_polynomials(order: usize) -> Vec<f64> {
    let nodes = cosines(order).into_iter();
    let at_nodes: Vec<_> = nodes.map(|x| polynomials(order, x)).collect();
    (0..order * order)
        .map(|place| at_nodes[place % order][place / order])
        .collect()
}

/// Air at each node, per cent: the deficiency is tiny, about a floor that a caller would give, or as
/// large as in an old goaf, and of either sign.
pub fn air(draw: &mut Draw, nodes: usize) -> Fields {
    let most = draw.one_of(&[1e-4, 0.2, 15.0]);
    let mut fields = [vec![], vec![], vec![]];
    for _ in 0..nodes {
        let nitrogen = 79.04 + 7.0 * draw.unit().abs();
        fields[0].push(0.01 * draw.unit());
        fields[1].push(nitrogen);
        fields[2].push(0.265 * nitrogen - most * draw.unit());
    }
    fields
}

/// Any floats; or air; or air with a special float at one node of one gas.
fn fields(draw: &mut Draw, nodes: usize) -> Fields {
    let mut fields = air(draw, nodes);
    match draw.below(3) {
        0 => fields.fill_with(|| draw.lent(nodes)),
        1 if nodes > 0 => fields[draw.below(3)][draw.below(nodes)] = draw.one_of(&SPECIAL),
        _ => {}
    }
    fields
}

/// A map over a cell. Half of them lie about 0, so that no point is far from it.
pub fn drawn(draw: &mut Draw, cell: Cell) -> Drawn {
    let (dimension, order, nodes) = shape(cell);
    let length = draw.length(dimension);
    let centre = match draw.one_in(2) {
        true => vec![0.0; length],
        false => draw.coordinates(length),
    };
    let node_polynomials = match draw.below(3) {
        0 => draw.lent(order.pow(2)),
        _ => true_polynomials(order),
    };
    Drawn {
        cell,
        floor: draw.floor(),
        centre,
        node_polynomials,
        fields: fields(draw, nodes),
    }
}

pub fn call(map: &Map, lent: &mut Lent) -> Result<(), Refusal> {
    let Lent {
        floats: [points, values, factors, ratios],
        answers,
    } = lent;
    graham_ratios(
        map.cell,
        map.floor,
        map.centre,
        map.node_polynomials,
        points,
        map.gases,
        values,
        factors,
        answers,
        ratios,
    )
}

/// How often each number was answered, and how many points had each answer.
#[derive(Default)]
pub struct Met {
    pub tally: Tally,
    airs: [usize; 3],
}

impl Met {
    /// What holds of every answer, whatever the gases are. The rule is not asked for it.
    fn count(&mut self, before: &Lent, after: &Lent) {
        let lent = before.floats[3].iter().zip(&after.floats[3]);
        for (answer, (place, ratio)) in after.answers.iter().zip(lent) {
            match Air::with_number(*answer).expect("an answer from 0 to 2") {
                Air::Ratio => assert!(ratio.is_finite()),
                Air::Unusable | Air::Fresh => assert_eq!(ratio.to_bits(), place.to_bits()),
            }
            self.airs[usize::from(*answer)] += 1;
        }
    }

    /// Holds a call to the rule: all that is lent, and after a refusal that all is kept. Gives what the
    /// call left.
    pub fn is_ruled(&mut self, map: &Map, before: &Lent) -> Lent {
        let mut after = before.clone();
        let answer = call(map, &mut after);
        let case = (map, &before.floats[0]);
        let ruled = rule::graham_ratios(map, before);
        let Some(expected) = self.tally.number(&case, &answer, ruled) else {
            for (left, lent) in after.floats.iter().zip(&before.floats) {
                assert_eq!(bits(left), bits(lent), "{case:?}");
            }
            assert_eq!(after.answers, before.answers, "{case:?}");
            return after;
        };
        self.count(before, &after);
        assert_eq!(after.answers, expected.answers, "{case:?}");
        for (place, list) in expected.floats.iter().enumerate() {
            let holds = same_floats(&after.floats[place], list);
            assert!(holds, "floats {place} of {case:?}");
        }
        after
    }

    /// Sees that at least so many points had each answer.
    pub fn answered(&self, least: usize) {
        let [ratio, unusable, fresh] = self.airs;
        println!("ratio {ratio}, unusable {unusable}, fresh {fresh}");
        assert!(self.airs.iter().all(|&count| count >= least));
    }
}
