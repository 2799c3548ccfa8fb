//! The rule of the cross approximation in our own words, where the order of adding is left open.
//!
//! The text leaves that order to the matrix crate. A run in rising index is held equal to the text
//! with our stand-in for that crate; a run in falling index shows what depends on the order.

use crate::cross::{Block, Cross, Factors};
use oracle::aca::reach::argmax;
use oracle::notes::{Notes, Stop};

/// The index in which every product of matrices adds its terms.
#[derive(Clone, Copy)]
pub enum Order {
    Rising,
    Falling,
}

impl Order {
    fn sum(self, terms: impl DoubleEndedIterator<Item = f64>) -> f64 {
        match self {
            Self::Rising => terms.fold(0.0, |total, term| total + term),
            Self::Falling => terms.rfold(0.0, |total, term| total + term),
        }
    }

    fn dot(self, one: &[f64], other: &[f64]) -> f64 {
        self.sum(one.iter().zip(other).map(|(a, b)| a * b))
    }
}

/// A run so far; the masks are 1 where a row or a column has not been read.
struct Run<'a> {
    block: &'a Block,
    order: Order,
    free_rows: Vec<u8>,
    free_columns: Vec<u8>,
    rows: Vec<usize>,
    columns: Vec<usize>,
    us: Vec<Vec<f64>>,
    vs: Vec<Vec<f64>>,
    pivots: Vec<f64>,
    notes: Notes,
}

impl<'a> Run<'a> {
    fn new(block: &'a Block, order: Order) -> Self {
        Self {
            block,
            order,
            free_rows: vec![1; block.rows],
            free_columns: vec![1; block.columns],
            rows: Vec::new(),
            columns: Vec::new(),
            us: Vec::new(),
            vs: Vec::new(),
            pivots: Vec::new(),
            notes: Notes::default(),
        }
    }

    /// An entry without the terms so far.
    fn residual(&self, row: usize, column: usize) -> f64 {
        let terms = self.us.iter().zip(&self.vs);
        let known = self.order.sum(terms.map(|(u, v)| u[row] * v[column]));
        self.block.entry(row, column) - known
    }

    /// How the new term meets the earlier ones.
    fn cross_term(&self, u: &[f64], v: &[f64]) -> f64 {
        let terms = self.us.iter().zip(&self.vs);
        let dots = terms.map(|(a, b)| self.order.dot(a, u) * self.order.dot(b, v));
        self.order.sum(dots)
    }

    /// Adds the term of a row; answers the next row, or none where the run ends.
    fn step(&mut self, row: usize) -> Option<usize> {
        let block = self.block;
        self.rows.push(row);
        self.free_rows[row] = 0;
        let mut v: Vec<f64> = (0..block.columns).map(|j| self.residual(row, j)).collect();
        let column = argmax(&v, &self.free_columns);
        let size = v[column];
        if size.abs() < f64::EPSILON {
            self.notes.stop = Stop::NearZero;
            self.notes.row = v;
            return None;
        }
        self.pivots.push(size);
        let scale = 1.0 / size;
        v.iter_mut().for_each(|entry| *entry *= scale);
        self.columns.push(column);
        self.free_columns[column] = 0;
        let u: Vec<f64> = (0..block.rows).map(|i| self.residual(i, column)).collect();
        let next = argmax(&u, &self.free_rows);
        let norm = self.order.dot(&u, &u) * self.order.dot(&v, &v);
        self.notes.estimate += norm + 2.0 * self.cross_term(&u, &v);
        self.notes.row.clone_from(&v);
        self.notes.column.clone_from(&u);
        self.us.push(u);
        self.vs.push(v);
        if norm <= block.epsilon * block.epsilon * self.notes.estimate {
            self.notes.stop = Stop::Reached;
            return None;
        }
        Some(next)
    }
}

/// The smallest size among the pivots that are numbers, or +0.0 where none is.
fn smallest(pivots: &[f64]) -> f64 {
    let numbers = pivots.iter().filter(|pivot| !pivot.is_nan());
    numbers
        .map(|pivot| pivot.abs())
        .reduce(f64::min)
        .unwrap_or(0.0)
}

/// Runs the rule on a block.
pub fn run(block: &Block, order: Order) -> Cross {
    let mut run = Run::new(block, order);
    let mut next = Some(0);
    for _ in 0..block.steps() {
        let Some(row) = next else { break };
        next = run.step(row);
    }
    run.notes.smallest = smallest(&run.pivots);
    Cross {
        factors: Factors {
            rank: run.us.len(),
            u: run.us.concat(),
            v: run.vs.concat(),
            rows: run.rows,
            columns: run.columns,
        },
        notes: run.notes,
    }
}
