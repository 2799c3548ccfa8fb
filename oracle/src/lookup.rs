//! Builds the files that ask for the case and the reference of transfer vectors, and the answers.

use crate::filled;
use oracle::chebyshev::reach::Tables;

/// One input file: records of a dimension and three signed entries, and its answers.
pub struct File {
    pub name: &'static str,
    pub content: Vec<u8>,
    pub answers: String,
}

/// The files, in the order in which they are asked.
pub struct Lookup {
    pub files: Vec<File>,
}

impl Lookup {
    pub fn answers(&self) -> String {
        self.files.iter().map(|file| &*file.answers).collect()
    }
}

/// Why a record is refused, if it is; the lowest number wins.
///
/// The Rust text refuses nothing: these three rules come from the specification.
fn refusal(dimension: u8, entries: [i32; 3]) -> Option<u8> {
    if !(1..=3).contains(&dimension) {
        return Some(1);
    }
    let (within, past) = entries.split_at(dimension.into());
    if within.iter().any(|entry| !(-3..=3).contains(entry)) {
        return Some(4);
    }
    past.iter().any(|&entry| entry != 0).then_some(6)
}

fn answer(record: [u8; 4], all: &[Tables]) -> String {
    let [dimension, bytes @ ..] = record;
    let entries = bytes.map(|byte| i32::from(byte as i8));
    if let Some(rule) = refusal(dimension, entries) {
        return format!("refused {rule}\n");
    }
    let dimension = usize::from(dimension);
    let vector = &entries[..dimension];

    // Cases and references do not depend on the order, so the first order serves.
    let tables = all
        .iter()
        .find(|tables| tables.dimension == dimension)
        .expect("tables for every dimension");
    let index = tables
        .vectors
        .iter()
        .position(|known| known == vector)
        .expect("a vector the text knows");
    let (case, reference) = (tables.case_of[index], tables.reference_of[index]);
    let near = vector.iter().all(|entry| (-1..=1).contains(entry));
    let place = if near { "near" } else { "far" };
    format!("{index} {case} {reference} {place}\n")
}

/// The lines for a stream of records; an unfinished last one gets a line of its own.
pub fn answers(content: &[u8], all: &[Tables]) -> String {
    let (records, rest) = content.as_chunks::<4>();
    let mut lines: String = records.iter().map(|&record| answer(record, all)).collect();
    if !rest.is_empty() {
        lines.push_str(&format!("short {}\n", rest.len()));
    }
    lines
}

fn record(dimension: u8, entries: [i32; 3]) -> [u8; 4] {
    let [x, y, z] = entries.map(|entry| i8::try_from(entry).expect("a signed byte") as u8);
    [dimension, x, y, z]
}

/// Every vector of every dimension, in the order of the text.
fn every_vector(all: &[Tables]) -> Vec<u8> {
    all.iter()
        .filter(|tables| tables.order == all[0].order)
        .flat_map(|tables| {
            let dimension = tables.dimension as u8;
            tables
                .vectors
                .iter()
                .flat_map(move |vector| record(dimension, filled(vector)))
        })
        .collect()
}

/// A vector that is good in `dimension`, for a fault to be set into.
fn good(dimension: u8) -> [i32; 3] {
    filled(&[2, -1, 3][..usize::from(dimension)])
}

fn with(mut entries: [i32; 3], axis: u8, entry: i32) -> [i32; 3] {
    entries[usize::from(axis)] = entry;
    entries
}

/// Dimensions that do not exist, with good entries and with bad ones.
fn bad_dimensions(records: &mut Vec<[u8; 4]>) {
    for dimension in [0, 4, 5, 127, 128, 255] {
        for entries in [[0, 0, 0], [2, -1, 3], [4, 0, 0], [1, -128, 127]] {
            records.push(record(dimension, entries));
        }
    }
}

/// An entry out of range on each axis that counts.
fn bad_entries(records: &mut Vec<[u8; 4]>) {
    for dimension in 1..=3 {
        for axis in 0..dimension {
            for entry in [4, -4, 5, 127, -128] {
                records.push(record(dimension, with(good(dimension), axis, entry)));
            }
        }
    }
}

/// An entry other than 0 on each axis that does not count.
fn bad_tails(records: &mut Vec<[u8; 4]>) {
    for dimension in 1..=2 {
        for axis in dimension..3 {
            for entry in [1, -1, 4, -128] {
                records.push(record(dimension, with(good(dimension), axis, entry)));
            }
        }
    }
}

/// A bad entry on an axis that counts together with one on an axis that does not.
fn both_bad(records: &mut Vec<[u8; 4]>) {
    for dimension in 1..=2 {
        for axis in 0..dimension {
            for past in dimension..3 {
                for (entry, tail) in [(4, 1), (-4, -1), (127, 4), (-128, -128)] {
                    let entries = with(good(dimension), axis, entry);
                    records.push(record(dimension, with(entries, past, tail)));
                }
            }
        }
    }
}

fn refused() -> Vec<u8> {
    let mut records = Vec::new();
    bad_dimensions(&mut records);
    bad_entries(&mut records);
    bad_tails(&mut records);
    both_bad(&mut records);
    records.concat()
}

/// All files, with their answers.
pub fn lookup(all: &[Tables]) -> Lookup {
    let every = every_vector(all);
    let mut long = every.repeat(11);
    long.extend([2, 1, 255]);
    let contents = [
        ("all", every),
        ("refused", refused()),
        ("empty", vec![]),
        ("one", vec![3]),
        ("two", vec![3, 254]),
        ("three", vec![3, 254, 1]),
        ("long", long),
    ];
    let files = contents
        .into_iter()
        .map(|(name, content)| File {
            name,
            answers: answers(&content, all),
            content,
        })
        .collect();
    Lookup { files }
}
