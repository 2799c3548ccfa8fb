//! Builds the cases that ask for the operators between a block's nodes and those of its children.

use crate::floats::{Header, Stream, shown};
use crate::random::Random;
use oracle::chebyshev::reach;

const OPERATORS: u8 = 3;

pub fn ask(stream: &mut Stream, order: usize, nodes: &[f64], polynomials: &[f64]) {
    let header = Header {
        kind: OPERATORS,
        order,
        ..Header::default()
    };
    let operators = reach::operators(order, nodes, polynomials);
    let line = format!("operators {order}:{}", shown(&operators));
    stream.case(header, &[nodes, polynomials], &line);
}

/// The nodes of an order and the polynomials there.
pub fn true_nodes(order: usize) -> (Vec<f64>, Vec<f64>) {
    let nodes = reach::nodes(order);
    let (polynomials, _) = reach::polynomials(order, &nodes, false);
    (nodes, polynomials)
}

/// The true operators of every order, then those where nothing rounds, then special floats.
pub fn ask_all(stream: &mut Stream, random: &mut Random) {
    for order in 1..=16 {
        let (nodes, polynomials) = true_nodes(order);
        ask(stream, order, &nodes, &polynomials);
    }
    // Odd nodes have whole child nodes, and a power of two divides exactly: nothing rounds.
    for order in [1, 2, 4, 8, 16] {
        let nodes = random.picks(order, &[-3.0, -1.0, 1.0, 3.0]);
        let polynomials = random.picks(order * order, &[-2.0, -1.0, 0.0, 1.0, 2.0]);
        ask(stream, order, &nodes, &polynomials);
    }
    let nodes = [-0.0, 1.0, f64::INFINITY, f64::from_bits(1)];
    ask(stream, 4, &nodes, &special_rows());
}

/// Four by four, column after column: a row of whole numbers, then one each of negative zeros, an infinity and a NaN.
pub fn special_rows() -> Vec<f64> {
    let rows = [
        [1.0, 2.0, -1.0, 2.0],
        [-0.0; 4],
        [1.0, f64::INFINITY, 1.0, 1.0],
        [1.0, 2.0, f64::NAN, 2.0],
    ];
    (0..16).map(|place| rows[place % 4][place / 4]).collect()
}
