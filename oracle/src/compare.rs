//! Compares our programs with the Rust text on cases drawn from a seed, and stores nothing. Restart mode,
//! Graham's ratio, second derivatives and curvature, which the text does not have, are compared with our
//! own writing of their rules.

mod blocks;
mod calls;
mod cases;
mod draw;
mod maps;
mod programs;
mod tally;

use crate::crosses::ask_restart;
use crate::floats::Stream;
use crate::polynomials::ask_nodes;
use crate::random::Random;
use crate::replay::{COMBINED, INVERSE, Replay};
use calls::CALLS;
use oracle::chebyshev::reach::{Tables, tables};
use programs::Programs;
use std::ffi::OsString;
use std::path::Path;
use std::process::ExitCode;
use std::str::FromStr;
use tally::{Batch, Tally};

const HIGHEST_ORDER: usize = 16;

/// A batch ends where it has so many cases, or so many bytes.
const MOST_CASES: usize = 4096;
const MOST_BYTES: usize = 8 << 20;

/// How many bytes a record of the tables has.
const RECORD: usize = 4;

/// The shapes of which restart mode is asked for every block, and the tolerances for each.
const SMALL_SHAPES: [(usize, usize); 3] = [(2, 2), (2, 3), (3, 2)];
const TINY_SHAPES: [(usize, usize); 4] = [(1, 1), (1, 2), (2, 1), (2, 2)];
const TOLERANCES: [f64; 3] = [0.0, 0.5, 1.0];

/// Zeros of both signs, floats about the least pivot, one whose square overflows, infinity and NaN; and 49,
/// of which more than the least pivot is left in a column that is used.
const SPECIAL: [f64; 8] = [
    0.0,
    -0.0,
    f64::EPSILON,
    f64::EPSILON.next_down(),
    49.0,
    -1e200,
    f64::INFINITY,
    f64::NAN,
];

/// Runs the program of the calls on floats; `ask` adds one case at a time, batch after batch.
fn on_floats(
    programs: &Programs,
    count: usize,
    mut ask: impl FnMut(&mut Stream) -> Result<(), String>,
) -> Result<Tally, String> {
    let mut tally = Tally::default();
    while tally.cases < count {
        let mut stream = Stream::default();
        let mut starts = Vec::new();
        let most = MOST_CASES.min(count - tally.cases);
        while starts.len() < most && stream.input.len() < MOST_BYTES {
            starts.push(stream.input.len());
            ask(&mut stream)?;
        }
        let found = programs.run("floats", &stream.input)?;
        let batch = Batch {
            input: &stream.input,
            starts: &starts,
            answers: &stream.answers,
        };
        tally.add(batch, &found)?;
    }
    Ok(tally)
}

/// Runs the program of the tables, whose cases are so few that they make one batch.
fn on_tables(programs: &Programs, replay: &Replay) -> Result<Tally, String> {
    let mut tally = Tally::default();
    let starts: Vec<usize> = (0..replay.input.len()).step_by(RECORD).collect();
    let batch = Batch {
        input: &replay.input,
        starts: &starts,
        answers: &replay.answers,
    };
    tally.add(batch, &programs.run("turn", &replay.input)?)?;
    Ok(tally)
}

/// The tables of one sort, of every dimension, order and case.
fn every_table(all: &[Tables], kind: u8) -> Replay {
    let mut replay = Replay::default();
    for tables in all {
        for case in 0..tables.combined.len() {
            replay.table(kind, tables, case);
        }
    }
    replay
}

/// What has so few inputs that all are asked, and nothing is drawn. Answers how many differ.
fn whole(programs: &Programs) -> Result<usize, String> {
    let all: Vec<Tables> = (1..=3)
        .flat_map(|dimension| (1..=HIGHEST_ORDER).map(move |order| tables(dimension, order)))
        .collect();
    let mut references = Replay::default();
    references.references(&all);
    let mut order = 0;
    let nodes = on_floats(programs, HIGHEST_ORDER, |stream| {
        order += 1;
        ask_nodes(stream, order);
        Ok(())
    })?;
    let tallies = [
        ("reference vectors", on_tables(programs, &references)?),
        (
            "combined tables",
            on_tables(programs, &every_table(&all, COMBINED))?,
        ),
        (
            "inverse tables",
            on_tables(programs, &every_table(&all, INVERSE))?,
        ),
        ("nodes", nodes),
    ];
    tallies.iter().for_each(|(name, tally)| tally.print(name));
    Ok(tallies.iter().map(|(_, tally)| tally.different).sum())
}

/// Restart mode on blocks so small that all are asked. Answers how many differ.
fn small_restarts(programs: &Programs) -> Result<usize, String> {
    let small = blocks::every(&SMALL_SHAPES, &[-1.0, 0.0, 1.0], &TOLERANCES);
    let special = blocks::every(&TINY_SHAPES, &SPECIAL, &TOLERANCES);
    let sets = [
        ("restart mode, every block of -1, 0, 1", small),
        ("restart mode, every block of special floats", special),
    ];
    let mut different = 0;
    for (name, set) in sets {
        let mut blocks = set.iter();
        let ask = |stream: &mut Stream| {
            blocks
                .next()
                .map_or(Ok(()), |block| ask_restart(stream, block))
        };
        let tally = on_floats(programs, set.len(), ask)?;
        tally.print(name);
        different += tally.different;
    }
    Ok(different)
}

/// Answers how many cases differ.
fn compare(programs: &Programs, seed: u64, count: usize) -> Result<usize, String> {
    let mut seeds = Random::new(seed);
    let mut different = whole(programs)? + small_restarts(programs)?;
    let mut start = seeds.clone();
    for (call, name, share) in CALLS {
        if !call.repeats() {
            start = seeds.branch();
        }
        let mut random = start.clone();
        let ask = |stream: &mut Stream| call.ask(&mut random, stream);
        let tally = on_floats(programs, count.div_ceil(share), ask)
            .map_err(|message| format!("{name}: {message}"))?;
        tally.print(name);
        different += tally.different;
    }
    Ok(different)
}

fn number<T: FromStr>(word: &OsString) -> Result<T, String> {
    let number = word.to_str().and_then(|word| word.parse().ok());
    number.ok_or_else(|| format!("no number: {}", word.display()))
}

fn run(root: &Path, words: &[OsString]) -> Result<usize, String> {
    let [seed, count, room, before @ ..] = words else {
        return Err(String::from("give a seed, a count and a folder"));
    };
    let programs = Programs {
        program: root.join("target/replay/replay"),
        room: room.into(),
        before: before.to_vec(),
    };
    compare(&programs, number(seed)?, number(count)?)
}

/// Ends with 1 where a case differs, and with 2 where nothing can be said.
pub fn main(root: &Path, words: &[OsString]) -> ExitCode {
    match run(root, words) {
        Ok(0) => ExitCode::SUCCESS,
        Ok(_) => ExitCode::from(1),
        Err(message) => {
            eprintln!("oracle: {message}");
            ExitCode::from(2)
        }
    }
}
