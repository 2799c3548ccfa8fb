//! What each of the two calls refuses, and what it takes: the border of the cell, coordinates outside it,
//! floats that are not finite, every length, and no points.

use bbfmm::{Cell, Refusal};

use super::held::{Drawn, ask, asked_is_ruled, drawn, scale, scaling_is_ruled};
use crate::draw::{Draw, SPECIAL};
use crate::held::Tally;
use crate::rule::coefficients::{Asked, Frame, Lent};

const NOT_FINITE: [f64; 3] = [f64::INFINITY, f64::NEG_INFINITY, f64::NAN];

/// The least and the largest length of a cell.
const LENGTHS: [f64; 2] = [1.0 / 1_048_576.0, 1_073_741_824.0];

/// A cell about 0 with four points, of order 3.
fn fitting(draw: &mut Draw, dimension: usize, with_gradients: bool) -> Drawn {
    let cell = Cell {
        dimension,
        order: 3,
        length: 1.0,
        rows: 4,
    };
    let mut fitting = drawn(draw, cell);
    let nodes = 4 * 3usize.pow(dimension as u32);
    let axes = 4 * 3 * dimension;
    let wanted = usize::from(with_gradients);
    let sizes = [nodes, wanted * dimension * nodes, axes, wanted * axes];
    fitting.with_gradients = with_gradients;
    fitting.centre = vec![0.0; dimension];
    fitting.points = (0..4 * dimension).map(|_| 0.5 * draw.unit()).collect();
    fitting.lent = sizes.map(|size| draw.floats(size));
    fitting
}

/// One point of a line about 0, on its border and a step of the last bit beside it, at three lengths.
#[test]
fn the_border_is_in_the_cell() {
    let border = 1.0 + 2f64.powi(-20);
    for length in [LENGTHS[0], 1.0, LENGTHS[1]] {
        for (coordinate, is_in) in [
            (border.next_down(), true),
            (border, true),
            (border.next_up(), false),
        ] {
            for x in [coordinate, -coordinate] {
                let frame = Frame {
                    dimension: 1,
                    length,
                    centre: &[0.0],
                };
                let before = [x * (length * 0.5)];
                let mut points = before;
                let answer = scale(frame, &mut points);
                if is_in {
                    assert_eq!((answer, points), (Ok(()), [x]));
                } else {
                    assert_eq!((answer, points), (Err(Refusal::OutOfCell), before));
                }
            }
        }
    }
}

/// The second call takes every finite coordinate: a step beyond the border, far outside, and the largest
/// float, where products overflow.
#[test]
fn coordinates_outside_the_cell_are_taken() {
    let mut draw = Draw::fitting(77);
    let mut tally = Tally::default();
    let border = 1.0 + 2f64.powi(-20);
    let finite = SPECIAL.into_iter().filter(|float| float.is_finite());
    let outside = [border.next_up(), -border.next_up(), 2.0, -2001.0, 1e17];
    for x in finite.chain(outside) {
        for dimension in 1..=3 {
            for with_gradients in [false, true] {
                let drawn = fitting(&mut draw, dimension, with_gradients);
                for place in 0..drawn.points.len() {
                    let mut coordinates = drawn.points.clone();
                    coordinates[place] = x;
                    asked_is_ruled(&mut tally, &drawn.asked(&coordinates), &drawn.lent);
                }
            }
        }
    }
    tally.reached("coordinates outside the cell", &[0]);
}

/// The two nodes of a line that docs/DIFFERENCES.md tells of, far outside: the field goes wild, and the call
/// says so by its numbers alone.
#[test]
fn far_outside_a_field_goes_wild() {
    let node = 2f64.powf(-0.5);
    let asked = Asked {
        dimension: 1,
        order: 2,
        length: None,
        node_polynomials: &[1.0, 1.0, -node, node],
        coordinates: &[2001.0],
    };
    let mut lent: Lent = [vec![0.0; 2], vec![], vec![0.0; 2], vec![]];
    assert_eq!(ask(&asked, &mut lent), Ok(()));
    let shown = [lent[0][0], lent[0][1]].map(|value| format!("{value:.1}"));
    assert_eq!(shown, ["-1414.4", "1415.4"]);
}

/// A float that is not finite, at each place of the points, the centre and the coordinates.
#[test]
fn what_is_not_finite_is_refused() {
    let mut draw = Draw::fitting(78);
    let [mut scaling, mut tally] = [Tally::default(), Tally::default()];
    for x in NOT_FINITE {
        for dimension in 1..=3 {
            for with_gradients in [false, true] {
                let fitting = fitting(&mut draw, dimension, with_gradients);
                for place in 0..fitting.points.len() {
                    let mut points = fitting.points.clone();
                    points[place] = x;
                    scaling_is_ruled(&mut scaling, fitting.frame(), &points);
                    asked_is_ruled(&mut tally, &fitting.asked(&points), &fitting.lent);
                }
                for axis in 0..dimension {
                    let mut drawn = fitting.clone();
                    drawn.centre[axis] = x;
                    scaling_is_ruled(&mut scaling, drawn.frame(), &drawn.points);
                }
            }
        }
    }
    scaling.reached("points that are not finite", &[9]);
    tally.reached("coordinates that are not finite", &[9]);
}

/// A finite point whose difference or quotient overflows is out of the cell.
#[test]
fn what_overflows_is_out_of_the_cell() {
    let mut tally = Tally::default();
    for (length, centre, point) in [
        (1.0, -1e308, 1e308),
        (LENGTHS[1], f64::MIN, f64::MAX),
        (LENGTHS[0], 0.0, 1e308),
    ] {
        let frame = Frame {
            dimension: 1,
            length,
            centre: &[centre],
        };
        scaling_is_ruled(&mut tally, frame, &[point]);
    }
    tally.reached("points that overflow", &[11]);
}

/// Each buffer with no entry, with one too few and with one too many, among others that fit. Points or
/// coordinates of other lengths are other points, or have a row that is not whole.
#[test]
fn every_length_is_asked() {
    let mut draw = Draw::fitting(79);
    let [mut scaling, mut tally] = [Tally::default(), Tally::default()];
    for dimension in 1..=3 {
        for with_gradients in [false, true] {
            let fitting = fitting(&mut draw, dimension, with_gradients);
            for change in 0..3 {
                let changed = |list: &mut Vec<f64>| {
                    let length = [0, list.len() - 1, list.len() + 1][change];
                    list.resize(length, 0.25);
                };
                let mut drawn = fitting.clone();
                changed(&mut drawn.centre);
                scaling_is_ruled(&mut scaling, drawn.frame(), &drawn.points);
                // The buffers of gradients are lent only with gradients.
                let places = if with_gradients { 0..6 } else { 0..4 };
                for place in places {
                    let mut drawn = fitting.clone();
                    match place {
                        0 => changed(&mut drawn.node_polynomials),
                        1 => changed(&mut drawn.points),
                        2 => changed(&mut drawn.lent[0]),
                        3 => changed(&mut drawn.lent[2]),
                        4 => changed(&mut drawn.lent[1]),
                        _ => changed(&mut drawn.lent[3]),
                    }
                    asked_is_ruled(&mut tally, &drawn.asked(&drawn.points), &drawn.lent);
                }
            }
        }
    }
    scaling.reached("every length of a centre", &[7]);
    tally.reached("every length", &[7]);
}

/// Rows that are not whole, up to the most points and beyond them.
#[test]
fn rows_are_whole() {
    let mut draw = Draw::fitting(80);
    let [mut scaling, mut tally] = [Tally::default(), Tally::default()];
    for dimension in 1..=3 {
        let drawn = fitting(&mut draw, dimension, false);
        for count in [4 * dimension, 4_096 * dimension, 4_097 * dimension] {
            for count in count - 1..=count + 1 {
                let points = vec![0.25; count];
                scaling_is_ruled(&mut scaling, drawn.frame(), &points);
                asked_is_ruled(&mut tally, &drawn.asked(&points), &drawn.lent);
            }
        }
    }
    scaling.reached("whole rows", &[0, 3, 7]);
    tally.reached("whole rows of coordinates", &[0, 3, 7]);
}

/// Without a point nothing is written, and the length, the centre and the shape are asked about all the
/// same; values alone have no length.
#[test]
fn no_points_are_ruled() {
    let mut draw = Draw::fitting(81);
    let [mut scaling, mut tally] = [Tally::default(), Tally::default()];
    for dimension in 1..=3 {
        let [least, most] = LENGTHS;
        for length in [
            least,
            most,
            least.next_down(),
            most.next_up(),
            0.0,
            -1.0,
            f64::NAN,
        ] {
            let is_length = length == least || length == most;
            for with_gradients in [false, true] {
                let mut drawn = fitting(&mut draw, dimension, with_gradients);
                drawn.cell.length = length;
                drawn.points.clear();
                drawn.lent = [const { vec![] }; 4];
                let (refused, _) = scaling_is_ruled(&mut scaling, drawn.frame(), &[]);
                assert_eq!(refused.is_none(), is_length, "{length}");
                let (refused, _) = asked_is_ruled(&mut tally, &drawn.asked(&[]), &drawn.lent);
                assert_eq!(refused.is_none(), is_length || !with_gradients, "{length}");
                drawn.centre[0] = f64::NAN;
                scaling_is_ruled(&mut scaling, drawn.frame(), &[]);
            }
        }
    }
    scaling.reached("no points", &[0, 8, 9]);
    tally.reached("no coordinates", &[0, 8]);
}
