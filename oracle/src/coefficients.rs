//! Builds the cases that ask what the nodes of a cell count for at points in it, and at coordinates
//! anywhere.

use crate::floats::{Header, Stream, shown};
use crate::operators::true_nodes;
use crate::random::{Random, SMALL};
use crate::special_cells;
use crate::unrounded;
use oracle::chebyshev::reach::{self, Cell, Coefficients};

/// Points are scaled by the library, and coefficients asked for at what that leaves.
const COEFFICIENTS: u8 = 7;
/// Coefficients are asked for at coordinates that are given, without a scaling.
const COORDINATES: u8 = 12;

/// The shortest and the longest length that the call takes.
pub const SHORTEST: f64 = 1.0 / 1_048_576.0;
pub const LONGEST: f64 = 1_073_741_824.0;

/// Lengths that are no powers of two, so that most scaling rounds.
const LENGTHS: [f64; 4] = [0.1, 3.7, 12_345.678_901_234_567, 600.0];

/// What a cell has before its floats are drawn.
#[derive(Clone, Copy)]
struct Shape {
    dimension: usize,
    order: usize,
    rows: usize,
    with_gradients: bool,
    length: f64,
}

/// Brings each coordinate that does not belong to the cell to its middle, or to the border.
///
/// The library refuses a point whose reference coordinate is above 1 + 2^-20 in size, where the text
/// goes on.
pub fn bring_in(length: f64, centre: &[f64], points: &mut [f64]) {
    let rows = (points.len() / centre.len()).max(1);
    let half = length * 0.5;
    let border = 1.0 + SHORTEST;
    let size = |point: f64, middle: f64| ((point - middle) / half).abs();
    for (column, middle) in points.chunks_mut(rows).zip(centre) {
        for point in column {
            let nearest = middle + border.copysign(*point - middle) * half;
            if size(*point, *middle) > border {
                *point = if size(nearest, *middle) > border {
                    *middle
                } else {
                    nearest
                };
            }
        }
    }
}

/// Brings each coordinate to the middle of the cell whose difference or quotient overflows: the library
/// refuses a reference coordinate that is not finite, where the text goes on.
pub fn keep_finite(length: f64, centre: &[f64], points: &mut [f64]) {
    let rows = (points.len() / centre.len()).max(1);
    for (column, middle) in points.chunks_mut(rows).zip(centre) {
        for point in column {
            if !((*point - middle) / (length * 0.5)).is_finite() {
                *point = *middle;
            }
        }
    }
}

fn header(kind: u8, cell: &Cell) -> Header {
    Header {
        kind,
        order: cell.order,
        dimension: cell.dimension,
        flag: cell.with_gradients,
        rows: cell.rows(),
    }
}

/// The line of a case: the points as the text scales them, the values, and gradients if they are wanted.
fn line(word: &str, cell: &Cell, answer: &Coefficients) -> String {
    let mut line = format!(
        "{word} {} {} {}:{} |{}",
        cell.dimension,
        cell.order,
        cell.rows(),
        shown(&answer.points),
        shown(&answer.values)
    );
    if let Some(gradients) = &answer.gradients {
        line.push_str(&format!(" |{}", shown(gradients)));
    }
    line
}

/// Adds the case of a cell, and answers what the text does.
pub fn ask(stream: &mut Stream, cell: &Cell) -> Coefficients {
    let answer = reach::coefficients(cell);
    let lists: [&[f64]; 4] = [
        &[cell.length],
        &cell.centre,
        &cell.node_polynomials,
        &cell.points,
    ];
    let line = line("coefficients", cell, &answer);
    stream.case(header(COEFFICIENTS, cell), &lists, &line);
    answer
}

/// Adds the case of a cell's points as the text scales them, in the cell or not. The library only reads
/// them, so that they stand in the line as they were given.
///
/// Values take no length: a NaN stands in its place, which would be refused if it were looked at.
pub fn ask_at_coordinates(stream: &mut Stream, cell: &Cell) {
    let answer = reach::coefficients(cell);
    let length = match cell.with_gradients {
        true => cell.length,
        false => f64::NAN,
    };
    let lists: [&[f64]; 3] = [&[length], &cell.node_polynomials, &answer.points];
    let line = line("coordinates", cell, &answer);
    stream.case(header(COORDINATES, cell), &lists, &line);
}

/// A cell about some point, with points at the scaled coordinates that are drawn for each axis.
fn cell(
    shape: Shape,
    centre: Vec<f64>,
    node_polynomials: Vec<f64>,
    mut draw: impl FnMut(usize) -> Vec<f64>,
) -> Cell {
    let points = centre
        .iter()
        .flat_map(|middle| {
            let scaled = draw(shape.rows).into_iter();
            scaled.map(move |x| middle + x * (0.5 * shape.length))
        })
        .collect();
    Cell {
        dimension: shape.dimension,
        order: shape.order,
        with_gradients: shape.with_gradients,
        length: shape.length,
        centre,
        node_polynomials,
        points,
    }
}

/// Asks for points drawn in a cell whose centre is not 0, with the true polynomials at its nodes.
fn ask_drawn(stream: &mut Stream, random: &mut Random, shape: Shape) {
    let centre = random
        .units(shape.dimension)
        .into_iter()
        .map(|unit| 8.0 * unit * shape.length)
        .collect();
    let (_, polynomials) = true_nodes(shape.order);
    ask(
        stream,
        &cell(shape, centre, polynomials, |rows| random.units(rows)),
    );
}

/// Every dimension and order, with few rows, so that the answers of low orders are written out.
fn every_order(stream: &mut Stream, random: &mut Random) {
    for dimension in 1..=3 {
        for order in 1..=16 {
            for with_gradients in [false, true] {
                let shape = Shape {
                    dimension,
                    order,
                    rows: [5, 4, 1 + order % 3][dimension - 1],
                    with_gradients,
                    length: LENGTHS[order % LENGTHS.len()],
                };
                ask_drawn(stream, random, shape);
            }
        }
    }
}

/// No points at all, and both ends of the lengths.
fn least(stream: &mut Stream, random: &mut Random) {
    for dimension in 1..=3 {
        for with_gradients in [false, true] {
            for (rows, length) in [(0, 3.7), (3, SHORTEST), (3, LONGEST)] {
                let shape = Shape {
                    dimension,
                    order: 3,
                    rows,
                    with_gradients,
                    length,
                };
                ask_drawn(stream, random, shape);
            }
        }
    }
}

/// The most nodes, and the most points, values and gradients that the replay has room for.
fn most(stream: &mut Stream, random: &mut Random) {
    let shapes = [
        (3, 16, 1, false),
        (3, 16, 1, true),
        (3, 16, 3, false),
        (3, 16, 3, true),
        (3, 16, 16, true),
        (2, 16, 256, true),
        (1, 16, 4096, true),
        (2, 4, 4096, false),
        (3, 2, 4096, true),
    ];
    for (dimension, order, rows, with_gradients) in shapes {
        let shape = Shape {
            dimension,
            order,
            rows,
            with_gradients,
            length: 0.7,
        };
        ask_drawn(stream, random, shape);
    }
}

/// A cell in which no operation rounds, though its polynomials are not those of its nodes.
///
/// The length must be a power of two, and the order too. The centre lies a whole number of lengths
/// away, and the scaled points are multiples of a quarter, or of a half where sixteen polynomials
/// would use up the digits of a float.
fn whole(random: &mut Random, shape: Shape) -> Cell {
    let quarters = [-1.0, -0.75, -0.5, -0.25, 0.0, 0.25, 0.5, 0.75, 1.0];
    let halves = [-1.0, -0.5, 0.0, 0.5, 1.0];
    let steps: &[f64] = if shape.order < 16 { &quarters } else { &halves };
    let centre = random
        .picks(shape.dimension, &[-5.0, -3.0, -1.0, 2.0, 3.0, 7.0])
        .into_iter()
        .map(|count| count * shape.length)
        .collect();
    let polynomials = random.picks(shape.order * shape.order, &SMALL);
    cell(shape, centre, polynomials, |rows| random.picks(rows, steps))
}

/// Cells where nothing rounds: here the answers are the Rust's own, whatever its product's order.
///
/// In all other cases they are those of the Rust with our stand-in for the matrix crate's product.
fn unrounded_cells(stream: &mut Stream, random: &mut Random) {
    for dimension in 1..=3 {
        for order in [1, 2, 4, 8, 16] {
            for (length, with_gradients) in
                [(0.5, false), (SHORTEST, true), (8.0, true), (LONGEST, true)]
            {
                let shape = Shape {
                    dimension,
                    order,
                    rows: [6, 5, 3][dimension - 1],
                    with_gradients,
                    length,
                };
                let cell = whole(random, shape);
                let answer = ask(stream, &cell);
                unrounded::check(&cell, &answer);
                stream.unrounded += 1;
            }
        }
    }
}

/// Cells of every order come first, then the limits, those where nothing rounds, and special floats.
pub fn ask_all(stream: &mut Stream) {
    let mut random = Random::new(4);
    every_order(stream, &mut random);
    least(stream, &mut random);
    most(stream, &mut random);
    unrounded_cells(stream, &mut random);
    special_cells::ask_all(stream);
}
