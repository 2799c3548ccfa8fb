//! Blocks whose cross approximation is made with no rounding at all, and the check that it is so.
//!
//! Every operation of the text is done once more in exact numbers, which refuse any that rounds. So
//! the answer does not depend on the order in which a product adds, nor on fusing. Not even the sign
//! of a zero does: no entry is -0.0, so no residual is, whatever zero is taken from it.

use crate::cross::{Block, Cross};
use crate::exact::Exact;
use crate::random::Random;
use oracle::aca::reach::argmax;
use oracle::notes::Stop;

/// A pivot is a number of the first list times one of the second: a power of two of either sign.
const CORNERS: [f64; 4] = [-2.0, -1.0, 1.0, 2.0];
const LARGEST: [f64; 2] = [-2.0, 2.0];

/// Whole numbers none of which is larger than the largest.
const SMALL: [f64; 5] = [-2.0, -1.0, 0.0, 1.0, 2.0];

/// Whole numbers, drawn where the mask is 1, and 0 elsewhere.
fn masked(random: &mut Random, mask: &[u8]) -> Vec<f64> {
    let drawn = random.picks(mask.len(), &SMALL).into_iter();
    let pairs = drawn.zip(mask);
    pairs
        .map(|(number, &free)| if free == 1 { number } else { 0.0 })
        .collect()
}

/// A sum of up to `rank` terms, each with a power of two where the text will look for a pivot.
///
/// A term is 0 in the rows and columns of the pivots before, so it is what the text finds there.
pub fn whole(random: &mut Random, shape: (usize, usize), rank: usize, epsilon: f64) -> Block {
    let (mut free_rows, mut free_columns) = (vec![1; shape.0], vec![1; shape.1]);
    let mut block = Block::from_fn(shape, epsilon, |_, _| 0.0);
    let mut row = 0;
    for _ in 0..rank.min(block.steps()) {
        let mut u = masked(random, &free_rows);
        let mut v = masked(random, &free_columns);
        u[row] = random.picks(1, &CORNERS)[0];
        let last = free_columns.iter().rposition(|&free| free == 1);
        v[last.expect("a free column")] = random.picks(1, &LARGEST)[0];
        for (place, entry) in block.entries.iter_mut().enumerate() {
            *entry += u[place % shape.0] * v[place / shape.0];
        }
        free_rows[row] = 0;
        let column = argmax(&v, &free_columns);
        free_columns[column] = 0;
        row = argmax(&u, &free_rows);
        // The text would go on in a row it has read, and end there.
        if free_rows[row] == 0 {
            break;
        }
    }
    block
}

fn exact(floats: &[f64]) -> Vec<Exact> {
    floats.iter().map(|&float| Exact::of(float)).collect()
}

fn dot(one: &[Exact], other: &[Exact]) -> Exact {
    let terms: Vec<Exact> = one.iter().zip(other).map(|(&a, &b)| a * b).collect();
    Exact::sum(&terms)
}

/// The terms so far, their squared norm, and the block they are taken from.
struct Terms<'a> {
    block: &'a Block,
    us: Vec<Vec<Exact>>,
    vs: Vec<Vec<Exact>>,
    estimate: Exact,
}

impl Terms<'_> {
    /// An entry without the terms; they are added up together, which covers every part of the sum.
    fn residual(&self, row: usize, column: usize) -> Exact {
        let mut terms = vec![Exact::of(self.block.entry(row, column))];
        for (u, v) in self.us.iter().zip(&self.vs) {
            terms.push(Exact::ZERO - u[row] * v[column]);
        }
        Exact::sum(&terms)
    }

    fn row(&self, row: usize) -> Vec<Exact> {
        let columns = 0..self.block.columns;
        columns.map(|column| self.residual(row, column)).collect()
    }

    fn column(&self, column: usize) -> Vec<Exact> {
        let rows = 0..self.block.rows;
        rows.map(|row| self.residual(row, column)).collect()
    }

    /// Adds a term, as the text does to its estimate.
    fn push(&mut self, u: Vec<Exact>, v: Vec<Exact>) {
        let earlier = self.us.iter().zip(&self.vs);
        let products: Vec<Exact> = earlier.map(|(a, b)| dot(a, &u) * dot(b, &v)).collect();
        let growth = dot(&u, &u) * dot(&v, &v) + Exact::TWO * Exact::sum(&products);
        self.estimate = self.estimate + growth;
        self.us.push(u);
        self.vs.push(v);
        let epsilon = Exact::of(self.block.epsilon);
        // Only its size is compared; that it does not round is all there is to see.
        let _ = epsilon * epsilon * self.estimate;
    }
}

/// Panics where an operation would round, or where the answer is not the exact one.
///
/// The text chooses a pivot, and when to end, by comparing floats that are checked here.
pub fn check(block: &Block, cross: &Cross) {
    let negative_zero = |entry: &f64| *entry == 0.0 && entry.is_sign_negative();
    assert!(!block.entries.iter().any(negative_zero), "an entry is -0.0");
    let (factors, notes) = (&cross.factors, &cross.notes);
    let mut terms = Terms {
        block,
        us: Vec::new(),
        vs: Vec::new(),
        estimate: Exact::ZERO,
    };
    for (place, &column) in factors.columns.iter().enumerate() {
        let row = terms.row(factors.rows[place]);
        let scale = Exact::ONE / row[column];
        let v: Vec<Exact> = row.iter().map(|&entry| entry * scale).collect();
        let u = terms.column(column);
        assert_eq!(
            v,
            exact(&factors.v[place * block.columns..][..block.columns])
        );
        assert_eq!(u, exact(&factors.u[place * block.rows..][..block.rows]));
        terms.push(u, v);
    }
    assert_eq!(terms.estimate, Exact::of(notes.estimate));
    if notes.stop == Stop::NearZero {
        let last = factors.rows[factors.rank];
        assert_eq!(terms.row(last), exact(&notes.row));
    }
}
