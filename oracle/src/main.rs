//! Writes the input and the answers of every comparison into the repository its argument names, or
//! compares on cases that are not stored.

mod check;
mod choices;
mod coefficients;
mod compare;
mod cross;
mod cross_blocks;
mod cross_exact;
mod cross_orders;
mod cross_rule;
mod crosses;
mod curvature_rule;
mod curvatures;
mod exact;
mod floats;
mod large_cross;
mod lookup;
mod operators;
mod points;
mod polynomials;
mod random;
mod ratio_rule;
mod ratios;
mod replay;
mod restart_rule;
mod special_cells;
mod special_crosses;
mod transfers;
mod unrounded;

use floats::Stream;
use lookup::Lookup;
use oracle::chebyshev::reach::{Tables, tables};
use replay::Replay;
use std::ffi::OsString;
use std::path::Path;
use std::process::ExitCode;
use std::{env, fs};

const ORDERS: [usize; 7] = [1, 2, 3, 4, 5, 6, 16];

/// The tables of every dimension and order, both rising.
fn ask() -> Vec<Tables> {
    (1..=3)
        .flat_map(|dimension| ORDERS.map(|order| tables(dimension, order)))
        .collect()
}

/// A vector of up to three entries, filled up with 0.
fn filled(vector: &[i32]) -> [i32; 3] {
    std::array::from_fn(|axis| vector.get(axis).copied().unwrap_or(0))
}

fn write(path: &Path, content: &[u8]) -> Result<(), String> {
    let fault = |error| format!("cannot write {}: {error}", path.display());
    if let Some(folder) = path.parent() {
        fs::create_dir_all(folder).map_err(fault)?;
    }
    fs::write(path, content).map_err(fault)
}

/// Writes the cases of a layer, and what the Rust answers to them.
fn write_layer(root: &Path, layer: &str, input: &[u8], answers: &str) -> Result<(), String> {
    let folder = root.join("tests/replay");
    write(&folder.join(format!("{layer}.in")), input)?;
    write(&folder.join(format!("{layer}.out")), answers.as_bytes())
}

fn write_all(root: &Path, replay: &Replay, lookup: &Lookup) -> Result<(), String> {
    write_layer(root, "turn", &replay.input, &replay.answers)?;

    let folder = root.join("tests/lookup");
    for file in &lookup.files {
        write(&folder.join("cases").join(file.name), &file.content)?;
    }
    write(&folder.join("answers"), lookup.answers().as_bytes())
}

/// The replays on floats, a stream for each layer.
fn floats() -> Result<Vec<(&'static str, Stream)>, String> {
    fn asked(ask: impl FnOnce(&mut Stream)) -> Stream {
        let mut stream = Stream::default();
        ask(&mut stream);
        stream
    }
    let mut cross = Stream::default();
    crosses::ask_all(&mut cross)?;
    Ok(vec![
        ("chebyshev", asked(polynomials::ask_all)),
        ("transfer", asked(transfers::ask_all)),
        ("points", asked(points::ask_all)),
        ("coefficients", asked(coefficients::ask_all)),
        ("choices", asked(choices::ask_all)),
        ("aca", cross),
    ])
}

/// What is only printed: figures, and the answer of a large block if the first word asks for it.
fn findings(words: &[OsString]) -> Result<Vec<String>, String> {
    let mut lines = cross_orders::lines()?;
    match words.first() {
        None => {}
        Some(word) if word == "large" => lines.push(large_cross::line()?),
        Some(other) => return Err(format!("no such argument: {}", other.display())),
    }
    Ok(lines)
}

fn store(root: &Path, words: &[OsString]) -> Result<(), String> {
    let tables = ask();
    // Nothing is written unless every check holds.
    check::tables(&tables)?;
    check::lookups(&tables)?;
    check::sample(&tables)?;

    let replay = replay::replay(&tables);
    let lookup = lookup::lookup(&tables);
    check::refusals(&lookup)?;
    let floats = floats()?;
    let findings = findings(words)?;
    write_all(root, &replay, &lookup)?;
    check::count(&tables, &replay, &lookup);
    for (layer, stream) in &floats {
        write_layer(root, layer, &stream.input, &stream.answers)?;
        stream.count(layer);
    }
    findings.iter().for_each(|line| println!("{line}"));
    Ok(())
}

fn main() -> ExitCode {
    let words: Vec<OsString> = env::args_os().skip(1).collect();
    let stored = match words.as_slice() {
        [] => Err(String::from("name the repository to write into")),
        [root, word, rest @ ..] if word == "compare" => {
            return compare::main(Path::new(root), rest);
        }
        [root, rest @ ..] => store(Path::new(root), rest),
    };
    match stored {
        Ok(()) => ExitCode::SUCCESS,
        Err(message) => {
            eprintln!("oracle: {message}");
            ExitCode::FAILURE
        }
    }
}
