//! The rule of the cross approximation in restart mode, in our own words: the text has no such mode.
//!
//! It is written from the request alone and shares nothing with the rule of the old mode. What differs:
//! only a column that was never used can be picked, a NaN is no pivot, a row without a pivot leaves
//! nothing behind but its place in the list, and no row is read twice.

use crate::cross::{Block, Cross};
use oracle::notes::Stop;

/// The least size of a pivot.
const LEAST_PIVOT: f64 = f64::EPSILON;

/// The sum of products, in rising index from +0.0.
fn dot<'a>(one: impl Iterator<Item = &'a f64>, other: impl Iterator<Item = &'a f64>) -> f64 {
    one.zip(other).fold(0.0, |sum, (a, b)| sum + a * b)
}

/// The first of the largest in size, among the places that are not taken and whose size is enough. A NaN
/// is never enough.
fn largest(list: &[f64], taken: &[usize], enough: impl Fn(f64) -> bool) -> Option<usize> {
    let mut best: Option<usize> = None;
    for (place, entry) in list.iter().enumerate() {
        let is_larger = best.is_none_or(|best| entry.abs() > list[best].abs());
        if !taken.contains(&place) && enough(entry.abs()) && is_larger {
            best = Some(place);
        }
    }
    best
}

/// A run so far. As soon as it ends, its notes say why.
struct Run<'a> {
    block: &'a Block,
    cross: Cross,
    least_pivot: Option<f64>,
}

impl Run<'_> {
    /// An entry without the terms so far.
    fn residual(&self, row: usize, column: usize) -> f64 {
        let factors = &self.cross.factors;
        let us = factors.u.iter().skip(row).step_by(self.block.rows);
        let vs = factors.v.iter().skip(column).step_by(self.block.columns);
        self.block.entry(row, column) - dot(us, vs)
    }

    /// How the new term meets the earlier ones.
    fn cross_term(&self, u: &[f64], v: &[f64]) -> f64 {
        let us = self.cross.factors.u.chunks(u.len());
        let vs = self.cross.factors.v.chunks(v.len());
        us.zip(vs).fold(0.0, |sum, (a, b)| {
            sum + dot(a.iter(), u.iter()) * dot(b.iter(), v.iter())
        })
    }

    /// Stores a term, and answers why the run ends with it, if it does.
    fn store(&mut self, u: &[f64], v: &[f64]) -> Option<Stop> {
        let norm = dot(u.iter(), u.iter()) * dot(v.iter(), v.iter());
        let growth = norm + 2.0 * self.cross_term(u, v);
        let Cross { factors, notes } = &mut self.cross;
        notes.estimate += growth;
        factors.u.extend(u);
        factors.v.extend(v);
        factors.rank += 1;
        let tolerance = self.block.epsilon * self.block.epsilon;
        if norm <= tolerance * notes.estimate {
            return Some(Stop::Reached);
        }
        (factors.rank == self.block.steps()).then_some(Stop::UsedUp)
    }

    /// Reads a row and stores its term, if it has a pivot. Answers the row that the column calls for, or
    /// none where it calls for none; or else why the run ends.
    fn step(&mut self, row: usize) -> Result<Option<usize>, Stop> {
        self.cross.factors.rows.push(row);
        let columns = 0..self.block.columns;
        let mut v: Vec<f64> = columns.map(|column| self.residual(row, column)).collect();
        self.cross.notes.row.clone_from(&v);
        let used = &self.cross.factors.columns;
        let Some(column) = largest(&v, used, |size| size >= LEAST_PIVOT) else {
            return Ok(None);
        };
        let size = v[column].abs();
        if self.least_pivot.is_none_or(|least| size < least) {
            self.least_pivot = Some(size);
        }
        let scale = 1.0 / v[column];
        v.iter_mut().for_each(|entry| *entry *= scale);
        self.cross.factors.columns.push(column);
        let rows = 0..self.block.rows;
        let u: Vec<f64> = rows.map(|row| self.residual(row, column)).collect();
        self.cross.notes.row.clone_from(&v);
        self.cross.notes.column.clone_from(&u);
        match self.store(&u, &v) {
            Some(stop) => Err(stop),
            None => Ok(largest(&u, &self.cross.factors.rows, |size| size > 0.0)),
        }
    }

    /// The lowest row that was not read.
    fn lowest(&self) -> Option<usize> {
        let read = &self.cross.factors.rows;
        (0..self.block.rows).find(|row| !read.contains(row))
    }

    /// Reads row after row, and answers why no more is read.
    fn rows(&mut self) -> Stop {
        if self.block.steps() == 0 {
            return Stop::UsedUp;
        }
        let mut next = Some(0);
        while let Some(row) = next {
            next = match self.step(row) {
                Ok(called) => called.or_else(|| self.lowest()),
                Err(stop) => return stop,
            };
        }
        Stop::AllTried
    }
}

/// Runs the rule on a block.
pub fn run(block: &Block) -> Cross {
    let mut run = Run {
        block,
        cross: Cross::default(),
        least_pivot: None,
    };
    run.cross.notes.stop = run.rows();
    run.cross.notes.smallest = run.least_pivot.unwrap_or(0.0);
    run.cross
}
