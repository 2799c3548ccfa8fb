//! Cross approximation, a step at a time, in the old mode and in restart mode.

use super::choices::argmax;
use super::{bad_length, dot, refusal};

/// The least pivot.
const LEAST: f64 = f64::EPSILON;

/// A block of samples, column-major.
#[derive(Clone, Copy)]
pub struct Block<'a> {
    pub rows: usize,
    pub columns: usize,
    pub samples: &'a [f64],
}

impl<'a> Block<'a> {
    pub fn new(rows: usize, columns: usize, samples: &'a [f64]) -> Self {
        Self {
            rows,
            columns,
            samples,
        }
    }

    fn at(&self, row: usize, column: usize) -> f64 {
        self.samples[row + column * self.rows]
    }

    pub fn lesser(&self) -> usize {
        self.rows.min(self.columns)
    }

    /// How long the list of rows is.
    pub fn rows_listed(&self, restart: bool) -> usize {
        if restart { self.rows } else { self.lesser() }
    }
}

/// What a run has found so far.
#[derive(Default)]
pub struct Run {
    /// The terms, each a column of U and one of V.
    pub u: Vec<Vec<f64>>,
    pub v: Vec<Vec<f64>>,
    /// The rows and the columns that were read, in order.
    pub rows: Vec<usize>,
    pub columns: Vec<usize>,
    pub estimate: f64,
    /// The smallest size among the pivots that were accepted and are numbers.
    pub smallest: Option<f64>,
    /// The row and the column that were last worked on.
    pub row: Vec<f64>,
    pub column: Vec<f64>,
    next: usize,
    restart: bool,
}

impl Run {
    /// An entry of the block, less the sum of the earlier terms there.
    fn rest(&self, block: &Block, row: usize, column: usize) -> f64 {
        let u = self.u.iter().map(|term| term[row]);
        let v = self.v.iter().map(|term| term[column]);
        block.at(row, column) - dot(u, v)
    }

    /// Whether the row that was read has no pivot to go on with. The old mode asks the entry that was
    /// picked, be its column used or not, and takes a NaN. Restart mode asks for a column that is not
    /// used and has at least 2^-52 in size, which a NaN has not.
    fn lacks_pivot(&self, picked: usize) -> bool {
        let is_pivot =
            |(at, entry): (usize, &f64)| !self.columns.contains(&at) && entry.abs() >= LEAST;
        match self.restart {
            true => !self.row.iter().enumerate().any(is_pivot),
            false => self.row[picked].abs() < LEAST,
        }
    }

    /// Reads a row, picks a column and scales the row; or says that the row has no pivot.
    fn read_row(&mut self, block: &Block) -> Option<usize> {
        let i = self.next;
        self.rows.push(i);
        self.row = (0..block.columns).map(|j| self.rest(block, i, j)).collect();
        let j = argmax(&self.row, |at| !self.columns.contains(&at));
        if self.lacks_pivot(j) {
            return None;
        }
        let pivot = self.row[j];
        let sizes = [self.smallest, Some(pivot.abs())];
        let numbers = sizes.into_iter().flatten().filter(|size| !size.is_nan());
        self.smallest = numbers.reduce(f64::min);
        self.row.iter_mut().for_each(|entry| *entry *= 1.0 / pivot);
        Some(j)
    }

    /// Reads a column and picks the next row.
    fn read_column(&mut self, block: &Block, j: usize) {
        self.columns.push(j);
        self.column = (0..block.rows).map(|i| self.rest(block, i, j)).collect();
        self.next = argmax(&self.column, |at| !self.rows.contains(&at));
    }

    /// Stores the term of the row and the column, and gives its norm.
    fn store(&mut self) -> f64 {
        let product = |l: &[f64], r: &[f64]| dot(l.iter().copied(), r.iter().copied());
        let with_u = self.u.iter().map(|term| product(term, &self.column));
        let with_v = self.v.iter().map(|term| product(term, &self.row));
        let cross = dot(with_u, with_v);
        let norm = product(&self.column, &self.column) * product(&self.row, &self.row);
        self.estimate += norm + 2.0 * cross;
        self.u.push(self.column.clone());
        self.v.push(self.row.clone());
        norm
    }

    /// Goes on with the lowest row that was not read, or ends with 4 where all were.
    fn take_lowest(&mut self, block: &Block) -> Option<u8> {
        match (0..block.rows).find(|row| !self.rows.contains(row)) {
            Some(row) => {
                self.next = row;
                None
            }
            None => Some(4),
        }
    }

    /// One step, and why the run ends with it, if it does: 1 tolerance, 2 spent, 3 iterations used, 4
    /// every row tried.
    fn step(&mut self, block: &Block, epsilon: f64) -> Option<u8> {
        let Some(j) = self.read_row(block) else {
            return match self.restart {
                true => self.take_lowest(block),
                false => Some(2),
            };
        };
        self.read_column(block, j);
        let norm = self.store();
        if norm <= (epsilon * epsilon) * self.estimate {
            return Some(1);
        }
        if self.u.len() == block.lesser() {
            return Some(3);
        }
        match self.restart && self.rows.contains(&self.next) {
            true => self.take_lowest(block),
            false => None,
        }
    }
}

/// What is lent in floats: U, V, row, column.
pub type Floats = [Vec<f64>; 4];
/// The two lists that are lent: rows, columns.
pub type Lists = [Vec<u16>; 2];

/// The whole run, and why it ended.
pub fn run(
    block: Block,
    epsilon: f64,
    restart: bool,
    floats: &Floats,
    lists: &Lists,
) -> Result<(Run, u8), u8> {
    let Block {
        rows,
        columns,
        samples,
    } = block;
    let lesser = block.lesser();
    refusal(&[
        bad_length(samples, &[rows, columns]),
        bad_length(&floats[0], &[rows, lesser]),
        bad_length(&floats[1], &[columns, lesser]),
        bad_length(&floats[2], &[columns]),
        bad_length(&floats[3], &[rows]),
        bad_length(&lists[0], &[block.rows_listed(restart)]),
        bad_length(&lists[1], &[lesser]),
        (3, rows > 1024 || columns > 1024),
    ])?;
    let mut run = Run {
        restart,
        ..Run::default()
    };
    let mut stop = (lesser == 0).then_some(3);
    while stop.is_none() {
        stop = run.step(&block, epsilon);
    }
    Ok((run, stop.expect("the loop ended")))
}
