//! Shows what depends on the order of adding: blocks are run in rising and in falling index.

use crate::cross::{self, Block, Factors};
use crate::cross_blocks::{self, EPSILONS};
use crate::cross_rule::{self, Order};
use crate::random::Random;

/// What was found among some blocks of one tolerance.
#[derive(Default)]
struct Figures {
    blocks: usize,
    /// A line for each block whose ranks differ.
    ranks: Vec<String>,
    /// Blocks of equal rank that read other rows or columns.
    reads: usize,
    /// The largest gap between entries of U, of V, and of their product, among all others.
    gaps: [f64; 3],
}

/// The largest gap between the entries of two lists.
fn gap(one: &[f64], other: &[f64]) -> f64 {
    let gaps = one.iter().zip(other).map(|(a, b)| (a - b).abs());
    gaps.fold(0.0, f64::max)
}

/// The block that the factors stand for.
fn product(block: &Block, factors: &Factors) -> Vec<f64> {
    let (rows, columns) = (block.rows, block.columns);
    let entry = |place: usize| {
        let us = factors.u[place % rows..].iter().step_by(rows);
        let vs = factors.v[place / rows..].iter().step_by(columns);
        us.zip(vs).map(|(u, v)| u * v).sum()
    };
    match factors.rank {
        0 => vec![0.0; rows * columns],
        _ => (0..rows * columns).map(entry).collect(),
    }
}

impl Figures {
    /// Runs a block in rising index, which is held equal to the text, and in falling index.
    fn add(&mut self, block: &Block) -> Result<(), String> {
        let rising = cross::answer(block)?.factors;
        let falling = cross_rule::run(block, Order::Falling).factors;
        self.blocks += 1;
        if rising.rank != falling.rank {
            self.ranks.push(format!(
                "orders: {} by {} at {:e}: rank {} in rising index, {} in falling",
                block.rows, block.columns, block.epsilon, rising.rank, falling.rank
            ));
        } else if !rising.same_reads(&falling) {
            self.reads += 1;
        } else {
            let products = [&rising, &falling].map(|factors| product(block, factors));
            let gaps = [
                gap(&rising.u, &falling.u),
                gap(&rising.v, &falling.v),
                gap(&products[0], &products[1]),
            ];
            self.gaps = [0, 1, 2].map(|list| self.gaps[list].max(gaps[list]));
        }
        Ok(())
    }

    fn lines(self, name: &str, epsilon: f64) -> Vec<String> {
        let [u, v, product] = self.gaps;
        let mut lines = vec![format!(
            "orders: {} {name} blocks at {epsilon:e}: {} with another rank, {} more with other \
             pivots; largest gap otherwise {u:.1e} in U, {v:.1e} in V, {product:.1e} in the product",
            self.blocks,
            self.ranks.len(),
            self.reads
        )];
        lines.extend(self.ranks);
        lines
    }
}

/// The smallest blocks whose ranks depend on the order.
fn smallest() -> Result<Vec<String>, String> {
    let mut figures = Figures::default();
    for block in cross_blocks::order_matters() {
        figures.add(&block)?;
    }
    if figures.ranks.len() < figures.blocks {
        return Err(String::from(
            "a rank that should depend on the order does not",
        ));
    }
    Ok(figures.ranks)
}

/// The lines that say what was found, for the stored blocks and for those drawn.
pub fn lines() -> Result<Vec<String>, String> {
    let mut random = Random::new(7);
    let mut lines = Vec::new();
    for epsilon in EPSILONS {
        let sets = [
            ("stored", cross_blocks::stored(epsilon)),
            ("drawn smooth", cross_blocks::boxes(&mut random, epsilon)),
            ("drawn", cross_blocks::drawn(&mut random, epsilon)),
        ];
        for (name, blocks) in sets {
            let mut figures = Figures::default();
            for block in blocks {
                figures.add(&block)?;
            }
            lines.extend(figures.lines(name, epsilon));
        }
    }
    lines.extend(smallest()?);
    Ok(lines)
}
