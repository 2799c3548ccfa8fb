//! The two calls in turn, held to the one call that they replace; and the second call twice, as the map
//! asks: values, then gradients, at the same coordinates.

use bbfmm::{Cell, Refusal};

use super::held::{Drawn, ask, asked_is_ruled, coordinates, drawn, scaling_is_ruled};
use super::{large_cells, small_cell};
use crate::draw::Draw;
use crate::held::{Tally, bits, same_floats};

/// All numbers with which one of the two refuses, and the old call did.
const FAULTS: [u8; 7] = [1, 2, 3, 7, 8, 9, 11];

/// The refusal of the two with the lower number, if there is one.
fn lower(first: Option<Refusal>, second: Option<Refusal>) -> Result<(), Refusal> {
    let refusals = first.into_iter().chain(second);
    let lowest = refusals.min_by_key(|refusal| refusal.number());
    lowest.map_or(Ok(()), Err)
}

/// What was seen of pairs: the lower number of each, and what each call answered by itself.
#[derive(Default)]
struct Pairs {
    lower: Tally,
    scaling: Tally,
    coefficients: Tally,
}

impl Pairs {
    /// Scales, and asks at what that leaves, which are the points as they came where it refuses. The lower
    /// number is the old call's. Where both accept, every buffer is as the old call left it.
    fn in_turn(&mut self, drawn: &Drawn) {
        let before = drawn.before();
        let (scaling, coordinates) =
            scaling_is_ruled(&mut self.scaling, drawn.frame(), &drawn.points);
        let asked = drawn.asked(&coordinates);
        let (found, lent) = asked_is_ruled(&mut self.coefficients, &asked, &drawn.lent);
        let Some(expected) = self.lower.number(drawn, &lower(scaling, found), before) else {
            return;
        };
        let [values, gradients, factors, slopes] = &lent;
        let left = [&coordinates, values, gradients, factors, slopes];
        for (place, (left, expected)) in left.into_iter().zip(&expected).enumerate() {
            assert!(same_floats(left, expected), "buffer {place} of {drawn:?}");
        }
    }

    /// The second call is asked about the points as they came, before any is scaled. The lower number is
    /// the old call's even so: a caller can know every refusal first.
    fn asked_first(&mut self, drawn: &Drawn) {
        let asked = drawn.asked(&drawn.points);
        let (found, _) = asked_is_ruled(&mut self.coefficients, &asked, &drawn.lent);
        let (scaling, _) = scaling_is_ruled(&mut self.scaling, drawn.frame(), &drawn.points);
        self.lower
            .number(drawn, &lower(scaling, found), drawn.before());
    }
}

#[test]
fn small_pairs_are_the_call_before() {
    let mut draw = Draw::new(73);
    let mut pairs = Pairs::default();
    for _ in 0..16_000 {
        let cell = small_cell(&mut draw);
        let drawn = drawn(&mut draw, cell);
        pairs.in_turn(&drawn);
        pairs.asked_first(&drawn);
    }
    pairs
        .scaling
        .reached("first of two", &[0, 1, 3, 7, 8, 9, 11]);
    pairs
        .coefficients
        .reached("second of two", &[0, 1, 2, 3, 7, 8, 9]);
    pairs.lower.reached("the pair", &[0, 1, 2, 3, 7, 8, 9, 11]);
}

#[test]
fn large_pairs_are_the_call_before() {
    let mut draw = Draw::fitting(74);
    let mut pairs = Pairs::default();
    for cell in large_cells(&mut draw) {
        pairs.in_turn(&drawn(&mut draw, cell));
    }
    pairs.lower.reached("large pairs", &[0, 11]);
}

/// A cell with this set of faults. A wrong length is the first call's, the second's or both calls'.
fn faulty(draw: &mut Draw, faults: &[u8], with_gradients: bool, lengths: usize) -> Drawn {
    let has = |number: u8| faults.contains(&number);
    let rows = if has(3) { 4_097 } else { 4 };
    // With too many points no other buffer fits, and their own number comes first.
    let (nodes, axes) = (9 * 4, 2 * 3 * 4);
    let wanted = usize::from(with_gradients);
    let sizes = [nodes, wanted * 2 * nodes, axes, wanted * axes];
    let mut drawn = Drawn {
        cell: Cell {
            dimension: if has(1) { 4 } else { 2 },
            order: if has(2) { 17 } else { 3 },
            length: if has(8) { 0.0 } else { 1.0 },
            rows,
        },
        with_gradients,
        centre: vec![0.25; 2],
        node_polynomials: draw.floats(9),
        points: vec![0.5; 2 * rows],
        lent: sizes.map(|size| draw.floats(size)),
    };
    if has(9) {
        drawn.points[0] = f64::INFINITY;
    }
    if has(11) {
        drawn.points[7] = 1.0;
    }
    if has(7) && lengths != 1 {
        drawn.centre.push(0.25);
    }
    if has(7) && lengths != 0 {
        drawn.lent[2].pop();
    }
    drawn
}

#[test]
fn of_several_faults_the_pair_tells_the_lowest() {
    let mut draw = Draw::fitting(75);
    let mut pairs = Pairs::default();
    for set in 0..1 << FAULTS.len() {
        let is_chosen = |place: &usize| (set >> place) & 1 == 1;
        let places = (0..FAULTS.len()).filter(is_chosen);
        let faults: Vec<u8> = places.map(|place| FAULTS[place]).collect();
        for with_gradients in [false, true] {
            for lengths in 0..3 {
                let drawn = faulty(&mut draw, &faults, with_gradients, lengths);
                pairs.in_turn(&drawn);
                pairs.asked_first(&drawn);
                let told = drawn.before().err();
                assert_eq!(told, faults.first().copied(), "the old rule's number");
            }
        }
    }
    pairs
        .lower
        .reached("every set of faults", &[0, 1, 2, 3, 7, 8, 9, 11]);
}

/// Values, then values and gradients, at the same coordinates: values and factors have the same bits. So
/// they have with another length, which only gradients and slopes are made with.
#[test]
fn values_agree_bit_for_bit() {
    let mut draw = Draw::fitting(76);
    let mut asked_twice = 0;
    for _ in 0..4_000 {
        let cell = small_cell_that_fits(&mut draw);
        let mut drawn = drawn(&mut draw, cell);
        let coordinates = coordinates(&mut draw, drawn.points.len());
        drawn.with_gradients = false;
        let [values, _, factors, _] = &drawn.lent;
        let mut only = [values.clone(), vec![], factors.clone(), vec![]];
        assert_eq!(ask(&drawn.asked(&coordinates), &mut only), Ok(()));

        drawn.with_gradients = true;
        for length in [drawn.cell.length, draw.cell_length()] {
            drawn.cell.length = length;
            let mut both = only.clone().map(|list| draw.floats(list.len()));
            both[1] = draw.floats(values.len() * cell.dimension);
            both[3] = draw.floats(factors.len());
            assert_eq!(ask(&drawn.asked(&coordinates), &mut both), Ok(()));
            for place in [0, 2] {
                assert_eq!(bits(&both[place]), bits(&only[place]), "{drawn:?}");
            }
            asked_twice += 1;
        }
    }
    println!("values, and then values and gradients: {asked_twice}");
}

/// A small cell that no call refuses, with a point at least.
fn small_cell_that_fits(draw: &mut Draw) -> Cell {
    let dimension = 1 + draw.below(3);
    Cell {
        dimension,
        order: 1 + draw.below([16, 6, 3][dimension - 1]),
        length: draw.cell_length(),
        rows: 1 + draw.below(5),
    }
}
