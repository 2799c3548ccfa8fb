//! Builds the cases that ask for the cross approximation of a block: in the old mode, answered by the
//! text, or in restart mode, answered by our own rule.

use crate::cross::{self, Block, Cross};
use crate::cross_blocks::{self, EPSILONS};
use crate::cross_exact;
use crate::floats::{Header, Stream, shown};
use crate::random::{Random, SMALL};
use crate::restart_rule;
use crate::special_crosses;
use oracle::notes::Stop;

const CROSS: u8 = 10;

/// The longest side, the most places of a block and the most terms that the replay has room for.
const LONGEST: usize = 255;
const MOST_PLACES: usize = 4096;
const MOST_TERMS: usize = 64;

/// What the lent memory holds before the call, so that a place that stays as lent is seen.
const LENT_FACTOR: f64 = 7.0;
const LENT_PLACE: usize = 9999;
const LENT_LINE: f64 = 5.0;

/// A list in lent memory: what is written, then what was there before.
fn lent<T: Clone>(written: &[T], places: usize, before: T) -> Vec<T> {
    assert!(written.len() <= places, "more written than is lent");
    let mut list = written.to_vec();
    list.resize(places, before);
    list
}

fn numbers(list: &[usize]) -> String {
    list.iter().map(|number| format!(" {number}")).collect()
}

fn line(block: &Block, cross: &Cross, restart: bool) -> String {
    let (factors, notes) = (&cross.factors, &cross.notes);
    let (rows, columns, steps) = (block.rows, block.columns, block.steps());
    let word = if restart { "restart" } else { "cross" };
    let listed = if restart { rows } else { steps };
    let lists = [
        shown(&lent(&factors.u, rows * steps, LENT_FACTOR)),
        shown(&lent(&factors.v, columns * steps, LENT_FACTOR)),
        numbers(&lent(&factors.rows, listed, LENT_PLACE)),
        numbers(&lent(&factors.columns, steps, LENT_PLACE)),
        shown(&lent(&notes.row, columns, LENT_LINE)),
        shown(&lent(&notes.column, rows, LENT_LINE)),
    ];
    format!(
        "{word} {rows} {columns}: rank {} stop {} rows {}{} |{}",
        factors.rank,
        notes.stop as u8,
        factors.rows.len(),
        shown(&[notes.estimate, notes.smallest]),
        lists.join(" |")
    )
}

/// What a case of a block begins with. The flag is the mode.
fn header(block: &Block, restart: bool) -> Result<Header, String> {
    // No factor has more places than the block: each has a side times the shorter side.
    if block.rows.max(block.columns) > LONGEST
        || block.rows * block.columns > MOST_PLACES
        || block.steps() > MOST_TERMS
    {
        return Err(format!(
            "no room for a block of {} by {}",
            block.rows, block.columns
        ));
    }
    Ok(Header {
        kind: CROSS,
        order: block.columns,
        rows: block.rows,
        flag: restart,
        ..Header::default()
    })
}

/// Adds the case of a block, and answers what the text does.
pub fn ask(stream: &mut Stream, block: &Block) -> Result<Cross, String> {
    let header = header(block, false)?;
    let cross = cross::answer(block)?;
    stream.negative_zeros += usize::from(cross.notes.negative_zero);
    let line = line(block, &cross, false);
    stream.case(header, &[&[block.epsilon], &block.entries], &line);
    Ok(cross)
}

/// Adds the case of a block in restart mode, with what our own rule answers: the text has no such mode.
pub fn ask_restart(stream: &mut Stream, block: &Block) -> Result<(), String> {
    let header = header(block, true)?;
    let line = line(block, &restart_rule::run(block), true);
    stream.case(header, &[&[block.epsilon], &block.entries], &line);
    Ok(())
}

/// Every shape up to five by five, so that the answers are written out.
fn every_shape(stream: &mut Stream, random: &mut Random) -> Result<(), String> {
    for rows in 0..=5 {
        for columns in 0..=5 {
            for epsilon in [0.0, 0.5, 1.0, 1e-6] {
                let block = Block {
                    rows,
                    columns,
                    epsilon,
                    entries: random.picks(rows * columns, &SMALL),
                };
                ask(stream, &block)?;
            }
        }
    }
    Ok(())
}

/// Blocks that show one thing each.
fn fixed(stream: &mut Stream) -> Result<(), String> {
    for epsilon in [1.0, 0.5] {
        ask(stream, &square([2.0, 4.0, 1.0, 2.0], epsilon))?;
    }
    ask(stream, &square([1.0, 0.0, 0.0, 1.0], 0.5))?;
    ask(stream, &square([-0.0, 0.0, 0.0, -0.0], 0.5))?;
    // The least pivot that is not near zero, of either sign, and one step below it.
    for pivot in [f64::EPSILON, -f64::EPSILON, f64::EPSILON.next_down()] {
        ask(stream, &Block::from_fn((1, 1), 0.5, |_, _| pivot))?;
    }
    // 49 times its rounded inverse is below 1, and what is left of 49 is no near-zero pivot: so its
    // row and its column are read twice, and the entry outside them never is.
    for unread in [0.0, 5.0] {
        let Cross { factors, notes } = ask(stream, &square([49.0, 0.0, 0.0, unread], 0.5))?;
        let reads = (factors.rows.as_slice(), factors.columns.as_slice());
        if reads != (&[0, 0], &[0, 0]) || factors.rank != 2 || notes.stop != Stop::Reached {
            return Err(format!("the row of 49 is not read twice beside {unread}"));
        }
    }
    for block in cross_blocks::order_matters() {
        ask(stream, &block)?;
    }
    Ok(())
}

/// A block of two by two, row after row.
pub fn square(rows: [f64; 4], epsilon: f64) -> Block {
    Block::from_fn((2, 2), epsilon, |row, column| rows[2 * row + column])
}

/// Blocks where nothing rounds: here the answers are the Rust's own, whatever its product's order.
fn unrounded(stream: &mut Stream, random: &mut Random) -> Result<(), String> {
    for shape in [(2, 3), (5, 4), (6, 6), (9, 16), (16, 7), (16, 16)] {
        for rank in 1..=4 {
            for epsilon in [0.0, 0.5] {
                let block = cross_exact::whole(random, shape, rank, epsilon);
                let cross = ask(stream, &block)?;
                cross_exact::check(&block, &cross);
                stream.unrounded += 1;
            }
        }
    }
    Ok(())
}

/// Drawn floats of full rank, which fill all the memory there is room for.
fn most(stream: &mut Stream, random: &mut Random) -> Result<(), String> {
    for (rows, columns) in [(64, 64), (255, 16), (16, 255)] {
        let block = Block {
            rows,
            columns,
            epsilon: 1e-6,
            entries: random.units(rows * columns),
        };
        let cross = ask(stream, &block)?;
        if cross.factors.rank < block.steps() {
            return Err(format!(
                "{rows} by {columns} drawn floats have no full rank"
            ));
        }
    }
    Ok(())
}

/// Small shapes come first, then fixed blocks, those where nothing rounds, those where much does, and
/// special floats.
pub fn ask_all(stream: &mut Stream) -> Result<(), String> {
    let mut random = Random::new(6);
    every_shape(stream, &mut random)?;
    fixed(stream)?;
    unrounded(stream, &mut random)?;
    for epsilon in EPSILONS {
        for block in cross_blocks::stored(epsilon) {
            ask(stream, &block)?;
        }
    }
    most(stream, &mut random)?;
    special_crosses::ask_all(stream)
}
