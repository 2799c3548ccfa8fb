//! Asks the Rust text for the cross approximation of a block, and notes what it reads on the way.

use crate::cross_rule::{self, Order};
use crate::floats::same;
use faer::Mat;
use oracle::notes::{self, Notes};
use oracle::{aca, noted};
use std::cell::RefCell;

/// A block, column after column, and the tolerance it is asked for with.
pub struct Block {
    pub rows: usize,
    pub columns: usize,
    pub epsilon: f64,
    pub entries: Vec<f64>,
}

impl Block {
    pub fn from_fn(
        (rows, columns): (usize, usize),
        epsilon: f64,
        entry: impl Fn(usize, usize) -> f64,
    ) -> Self {
        let place = |place| entry(place % rows, place / rows);
        Self {
            rows,
            columns,
            epsilon,
            entries: (0..rows * columns).map(place).collect(),
        }
    }

    pub fn entry(&self, row: usize, column: usize) -> f64 {
        self.entries[row + column * self.rows]
    }

    /// The most terms that a run can add.
    pub fn steps(&self) -> usize {
        self.rows.min(self.columns)
    }
}

/// The factors, column after column, and the rows and columns read for them, in order.
#[derive(Debug, Default)]
pub struct Factors {
    pub rank: usize,
    pub u: Vec<f64>,
    pub v: Vec<f64>,
    pub rows: Vec<usize>,
    pub columns: Vec<usize>,
}

impl Factors {
    pub fn same_reads(&self, other: &Self) -> bool {
        self.rows == other.rows && self.columns == other.columns
    }

    fn same(&self, other: &Self) -> bool {
        self.rank == other.rank
            && self.same_reads(other)
            && same(&self.u, &other.u)
            && same(&self.v, &other.v)
    }
}

/// What a run answers, and how it ended.
#[derive(Debug, Default)]
pub struct Cross {
    pub factors: Factors,
    pub notes: Notes,
}

impl Cross {
    /// Whether all that the line shows is the same; the sign of a zero cross term is not shown.
    fn same(&self, other: &Self) -> bool {
        let (notes, others) = (&self.notes, &other.notes);
        self.factors.same(&other.factors)
            && notes.stop == others.stop
            && same(&[notes.estimate], &[others.estimate])
            && same(&notes.row, &others.row)
            && same(&notes.column, &others.column)
    }
}

/// The ranges that a run asks for: the rows from and up to, then the columns.
type Reads = RefCell<Vec<[usize; 4]>>;

/// The part of the block that a run asks for, which is noted.
fn part(block: &Block, reads: &Reads, asked: [usize; 4]) -> Mat<f64> {
    reads.borrow_mut().push(asked);
    let [top, bottom, left, right] = asked;
    Mat::from_fn(bottom - top, right - left, |i, j| {
        block.entry(top + i, left + j)
    })
}

fn list(matrix: &Mat<f64>) -> Vec<f64> {
    let columns = (0..matrix.ncols()).map(|column| matrix.col_as_slice(column));
    columns.flatten().copied().collect()
}

/// Each row that is read is whole, and so is the column after it: anything else is an error.
fn factors(block: &Block, u: &Mat<f64>, v: &Mat<f64>, reads: Reads) -> Result<Factors, String> {
    let mut factors = Factors {
        rank: u.ncols(),
        u: list(u),
        v: list(v),
        ..Factors::default()
    };
    for (place, asked) in reads.into_inner().into_iter().enumerate() {
        let [row, _, column, _] = asked;
        if place % 2 == 0 && asked == [row, row + 1, 0, block.columns] {
            factors.rows.push(row);
        } else if place % 2 == 1 && asked == [0, block.rows, column, column + 1] {
            factors.columns.push(column);
        } else {
            return Err(format!("a cross reads {asked:?}"));
        }
    }
    Ok(factors)
}

/// What the unchanged text answers.
fn text(block: &Block) -> Result<Factors, String> {
    let reads = Reads::default();
    let (u, v) = aca::aca_partial_pivoting(
        block.rows,
        block.columns,
        |&top, &bottom, &left, &right| part(block, &reads, [top, bottom, left, right]),
        &block.epsilon,
    );
    factors(block, &u, &v, reads)
}

/// What the copy of the text that notes answers.
fn noted(block: &Block) -> Result<Cross, String> {
    let reads = Reads::default();
    notes::take();
    let (u, v) = noted::aca_partial_pivoting(
        block.rows,
        block.columns,
        |&top, &bottom, &left, &right| part(block, &reads, [top, bottom, left, right]),
        &block.epsilon,
    );
    Ok(Cross {
        factors: factors(block, &u, &v, reads)?,
        notes: notes::take(),
    })
}

/// Asks the text; its copy that notes, and our own writing of the rule, must both agree with it. The rule
/// alone says what the smallest pivot is.
pub fn answer(block: &Block) -> Result<Cross, String> {
    let place = format!("cross {} {}", block.rows, block.columns);
    let mut cross = noted(block)?;
    if !text(block)?.same(&cross.factors) {
        return Err(format!("{place}: the copy that notes is not the text"));
    }
    let ruled = cross_rule::run(block, Order::Rising);
    if !ruled.same(&cross) {
        return Err(format!("{place}: the rule is not the text"));
    }
    cross.notes.smallest = ruled.notes.smallest;
    Ok(cross)
}
