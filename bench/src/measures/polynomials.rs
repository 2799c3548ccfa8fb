//! Nodes, polynomials, and the operators made of them.

use super::{Measure, node_polynomials};
use crate::chebyshev::doors;
use faer::MatRef;
use std::hint::black_box;

/// Orders and points for each size.
const ORDERS: [usize; 3] = [2, 8, 16];
const POINTS: [usize; 3] = [16, 256, 4096];

pub fn nodes(size: usize) -> Measure {
    let order = ORDERS[size];
    let mut nodes = vec![0.0; order];
    Measure {
        given: format!("order {order}"),
        floor: order,
        ours: Box::new(move || ours::generate_chebyshev_nodes(black_box(order), &mut nodes).expect("an order")),
        text: Some(Box::new(move || drop(black_box(doors::nodes(black_box(order)))))),
    }
}

pub fn mirror_exact(size: usize) -> Measure {
    let order = ORDERS[size];
    let mut nodes = vec![0.0; order];
    Measure {
        given: format!("order {order}"),
        floor: order,
        ours: Box::new(move || ours::generate_node_set(black_box(order), 1, &mut nodes).expect("a set")),
        text: None,
    }
}

pub fn values(size: usize) -> Measure {
    let (order, rows) = (ORDERS[size], POINTS[size]);
    let points = super::floats(rows);
    let same = points.clone();
    let mut tn = vec![0.0; rows * order];
    Measure {
        given: format!("order {order}, {rows} points"),
        floor: rows * (order - 2).max(1),
        ours: Box::new(move || {
            ours::evaluate_chebyshev_polynomials(order, black_box(&points), &mut tn, None).expect("lengths")
        }),
        text: Some(Box::new(move || drop(black_box(doors::polynomials(order, black_box(&same), false))))),
    }
}

pub fn derivatives(size: usize) -> Measure {
    let (order, rows) = (ORDERS[size], POINTS[size]);
    let points = super::floats(rows);
    let same = points.clone();
    let mut tn = vec![0.0; rows * order];
    let mut dtn = vec![0.0; rows * order];
    Measure {
        given: format!("order {order}, {rows} points"),
        floor: 3 * rows * (order - 2).max(1),
        ours: Box::new(move || {
            ours::evaluate_chebyshev_polynomials(order, black_box(&points), &mut tn, Some(&mut dtn)).expect("lengths")
        }),
        text: Some(Box::new(move || drop(black_box(doors::polynomials(order, black_box(&same), true))))),
    }
}

pub fn second_derivatives(size: usize) -> Measure {
    let (order, rows) = (ORDERS[size], POINTS[size]);
    let points = super::floats(rows);
    let [mut tn, mut dtn, mut ddtn] = [0.0; 3].map(|zero| vec![zero; rows * order]);
    Measure {
        given: format!("order {order}, {rows} points"),
        floor: 5 * rows * (order - 2).max(1),
        ours: Box::new(move || {
            ours::evaluate_second_derivatives(order, black_box(&points), &mut tn, &mut dtn, &mut ddtn).expect("lengths")
        }),
        text: None,
    }
}

pub fn operators(size: usize) -> Measure {
    let order = ORDERS[size];
    let (nodes, polynomials) = node_polynomials(order);
    let matrix = MatRef::from_column_major_slice(&polynomials, order, order).to_owned();
    let same = nodes.clone();
    let mut operators = vec![0.0; 2 * order * order];
    Measure {
        given: format!("order {order}"),
        floor: 2 * order * order * order,
        ours: Box::new(move || {
            ours::get_m2m_transfer_operators(order, black_box(&nodes), &polynomials, &mut operators).expect("lengths")
        }),
        text: Some(Box::new(move || drop(black_box(doors::operators(order, black_box(&same), &matrix))))),
    }
}
