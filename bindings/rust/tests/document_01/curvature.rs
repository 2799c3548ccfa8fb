//! Second derivatives, and the curvature of what the nodes of a cell count for.

use bbfmm::{
    Cell, Curvatures, Refusal, evaluate_chebyshev_polynomials, evaluate_second_derivatives,
    get_curvature_coefficients,
};

use crate::coefficients::{coordinates, large_cells, small_cell};
use crate::draw::Draw;
use crate::held::{Tally, bits, same_floats};
use crate::rule::chebyshev::evaluate_second;
use crate::rule::coefficients::Asked;
use crate::rule::curvature::{Lent, curvature};

/// What the call is asked about a cell, and what is lent to be written.
#[derive(Clone, Debug)]
struct Drawn {
    cell: Cell,
    node_polynomials: Vec<f64>,
    coordinates: Vec<f64>,
    lent: Lent,
}

/// What is lent for a shape, now and then of another length. Too many rows are refused whatever these
/// buffers are: no need for large ones.
fn lent(draw: &mut Draw, cell: Cell) -> Lent {
    let (dimension, order) = (cell.dimension.min(3), cell.order.min(16));
    let rows = if cell.rows > 4_096 { 2 } else { cell.rows };
    let all = rows * order.pow(dimension as u32) * dimension * (dimension + 1) / 2;
    let axes = rows * dimension * order;
    [all, axes, axes, axes, 3 * rows * order].map(|length| draw.lent(length))
}

fn drawn(draw: &mut Draw, cell: Cell) -> Drawn {
    let node_polynomials = draw.lent(cell.order.min(17).pow(2));
    let count = draw.length(cell.rows * cell.dimension.min(3));
    Drawn {
        cell,
        node_polynomials,
        coordinates: coordinates(draw, count),
        lent: lent(draw, cell),
    }
}

impl Drawn {
    fn asked(&self) -> Asked<'_> {
        Asked {
            dimension: self.cell.dimension,
            order: self.cell.order,
            length: Some(self.cell.length),
            node_polynomials: &self.node_polynomials,
            coordinates: &self.coordinates,
        }
    }

    /// Makes the call, and sees that what is only read stays as it came, in every bit.
    fn ask(&self, lent: &mut Lent) -> Result<(), Refusal> {
        let read = || [&self.node_polynomials, &self.coordinates].map(|list| bits(list));
        let before = read();
        let [curvatures, factors, slopes, bends, room] = lent;
        let mut lent = Curvatures {
            curvatures,
            factors,
            slopes,
            bends,
            room,
        };
        let Cell {
            dimension,
            order,
            length,
            ..
        } = self.cell;
        let (polynomials, coordinates) = (&self.node_polynomials, &self.coordinates);
        let answer = get_curvature_coefficients(
            dimension,
            order,
            length,
            polynomials,
            coordinates,
            &mut lent,
        );
        assert_eq!(read(), before, "what is only read");
        answer
    }

    /// Holds the call to the rule. Gives what is lent as the call left it.
    fn is_ruled(&self, tally: &mut Tally) -> Lent {
        let mut after = self.lent.clone();
        let answer = self.ask(&mut after);
        let ruled = curvature(&self.asked(), self.cell.length, &self.lent);
        tally.floats(self, &answer, ruled, [&self.lent, &after]);
        after
    }
}

#[test]
fn second_derivatives_are_ruled() {
    let mut draw = Draw::new(131);
    let mut tally = Tally::default();
    for _ in 0..8_000 {
        let order = draw.number(1..=16);
        let count = match draw.below(120) {
            0 => 4_096,
            1 => 4_097,
            _ => draw.below(30),
        };
        let points = draw.floats(count);
        let right = points.len() * order.min(17);
        let before = [(); 3].map(|()| draw.lent(right));
        let mut after = before.clone();
        let [tn, dtn, ddtn] = &mut after;
        let answer = evaluate_second_derivatives(order, &points, tn, dtn, ddtn);
        let ruled = evaluate_second(order, &points, &before);
        tally.floats(&(order, &points), &answer, ruled, [&before, &after]);
    }
    tally.reached("evaluate_second_derivatives", &[0, 2, 3, 7]);
}

/// T and T' are those of the call that gives no second derivatives, bit for bit.
#[test]
fn derivatives_are_those_of_the_other_call() {
    let mut draw = Draw::fitting(132);
    for _ in 0..2_000 {
        let (order, count) = (1 + draw.below(16), draw.below(9));
        let points = draw.floats(count);
        let [mut t, mut d, mut dd] = [(); 3].map(|()| vec![7.0; order * count]);
        let [mut other_t, mut other_d] = [(); 2].map(|()| vec![8.0; order * count]);
        evaluate_second_derivatives(order, &points, &mut t, &mut d, &mut dd).expect("lengths");
        evaluate_chebyshev_polynomials(order, &points, &mut other_t, Some(&mut other_d))
            .expect("lengths");
        assert!(same_floats(&t, &other_t) && same_floats(&d, &other_d));
    }
}

#[test]
fn small_cells_are_ruled() {
    let mut draw = Draw::new(133);
    let mut tally = Tally::default();
    for _ in 0..16_000 {
        let cell = small_cell(&mut draw);
        drawn(&mut draw, cell).is_ruled(&mut tally);
    }
    tally.reached("get_curvature_coefficients", &[0, 1, 2, 3, 7, 8, 9]);
}

#[test]
fn large_cells_are_ruled() {
    let mut draw = Draw::fitting(134);
    let mut tally = Tally::default();
    for cell in large_cells(&mut draw) {
        drawn(&mut draw, cell).is_ruled(&mut tally);
    }
    tally.reached("curvature, large cells", &[0]);
}

/// A small cell that nothing is wrong with.
fn fitting(draw: &mut Draw, dimension: usize) -> Drawn {
    let cell = Cell {
        dimension,
        order: 3,
        length: 0.7,
        rows: 2,
    };
    drawn(draw, cell)
}

/// Each buffer with no entry, with one too few and with one too many, among others that fit.
/// Coordinates of other lengths are other points, or have a row that is not whole.
#[test]
fn every_length_is_asked() {
    let mut draw = Draw::fitting(135);
    let mut tally = Tally::default();
    for dimension in 1..=3 {
        let fitting = fitting(&mut draw, dimension);
        for (place, change) in (0..7).flat_map(|place| (0..3).map(move |change| (place, change))) {
            let mut drawn = fitting.clone();
            let list = match place {
                0 => &mut drawn.node_polynomials,
                1 => &mut drawn.coordinates,
                _ => &mut drawn.lent[place - 2],
            };
            let length = [0, list.len() - 1, list.len() + 1][change];
            list.resize(length, 0.25);
            drawn.is_ruled(&mut tally);
        }
    }
    tally.reached("every length for curvature", &[7]);
}

/// Every set of faults: the lowest number is told, and nothing is written.
#[test]
fn the_lowest_number_is_told() {
    let mut draw = Draw::fitting(136);
    let mut tally = Tally::default();
    for faults in 0..64 {
        for place in 0..7 {
            let mut drawn = fitting(&mut draw, 1);
            let is_there = |fault: usize| faults >> fault & 1 == 1;
            if is_there(0) {
                drawn.cell.dimension = 4;
            }
            if is_there(1) {
                drawn.cell.order = 17;
            }
            if is_there(2) {
                drawn.coordinates = vec![0.25; 4 * 4_097];
            }
            if is_there(3) {
                match place {
                    0 => drawn.node_polynomials.push(1.0),
                    // With too many points the coordinates are long already.
                    1 => drawn.lent[0].push(1.0),
                    _ => drawn.lent[place - 2].push(1.0),
                }
            }
            if is_there(4) {
                drawn.cell.length = 0.0;
            }
            if is_there(5) {
                drawn.coordinates[1] = f64::NEG_INFINITY;
            }
            drawn.is_ruled(&mut tally);
        }
    }
    tally.reached(
        "every set of faults of the curvature",
        &[0, 1, 2, 3, 7, 8, 9],
    );
}

/// A coordinate that is not finite, at each place; and no points, where the length is asked about.
#[test]
fn what_is_not_finite_is_refused() {
    let mut draw = Draw::fitting(137);
    let [mut tally, mut empty] = [Tally::default(), Tally::default()];
    for dimension in 1..=3 {
        let fitting = fitting(&mut draw, dimension);
        for place in 0..fitting.coordinates.len() {
            for x in [f64::INFINITY, f64::NEG_INFINITY, f64::NAN] {
                let mut drawn = fitting.clone();
                drawn.coordinates[place] = x;
                drawn.is_ruled(&mut tally);
            }
        }
        for length in [
            2f64.powi(-20),
            2f64.powi(30),
            2f64.powi(30).next_up(),
            f64::NAN,
        ] {
            let mut drawn = fitting.clone();
            drawn.cell.length = length;
            drawn.coordinates.clear();
            drawn.lent = [const { vec![] }; 5];
            drawn.is_ruled(&mut empty);
        }
    }
    tally.reached("coordinates for curvature that are not finite", &[9]);
    empty.reached("curvature at no points", &[0, 8]);
}

/// The results of request E13 that can be worked out by hand: four nodes, of which node k has the sum
/// T_0 + T_k, at 0.5 in a cell of length 4.
#[test]
fn a_line_by_hand() {
    let mut node_polynomials = vec![0.0; 16];
    for node in 0..4 {
        node_polynomials[node] = 1.0;
        node_polynomials[5 * node] = 1.0;
    }
    let drawn = Drawn {
        cell: Cell {
            dimension: 1,
            order: 4,
            length: 4.0,
            rows: 1,
        },
        node_polynomials,
        coordinates: vec![0.5],
        lent: [4, 4, 4, 4, 12].map(|length| vec![7.0; length]),
    };
    let [curvatures, factors, slopes, bends, room] = drawn.is_ruled(&mut Tally::default());
    assert_eq!(curvatures, [0.0, 0.0, 0.5, 1.5]);
    assert_eq!(factors, [0.25, 0.5, 0.0, -0.25]);
    assert_eq!(slopes, [0.0, 0.25, 0.5, 0.0]);
    assert_eq!(bends, curvatures);
    assert_eq!(
        room,
        [
            1.0, 0.5, -0.5, -1.0, 0.0, 1.0, 2.0, 0.0, 0.0, 0.0, 4.0, 12.0
        ]
    );
}
