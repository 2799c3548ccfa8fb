//! Builds the records that ask for reference vectors and permutation tables, and the line for each.

use crate::filled;
use oracle::chebyshev::reach::Tables;

const REFERENCE: u8 = 0;
pub const COMBINED: u8 = 1;
pub const INVERSE: u8 = 2;

/// Tables longer than this are written as a checksum.
const LONGEST_SHOWN: usize = 64;

/// The input stream, of four bytes a record, and its answers, of one line a record.
#[derive(Default)]
pub struct Replay {
    pub input: Vec<u8>,
    pub answers: String,
}

impl Replay {
    /// Asks for every reference; they do not depend on the order, so the first of a dimension serves.
    pub fn references(&mut self, all: &[Tables]) {
        for tables in all.iter().filter(|tables| tables.order == all[0].order) {
            for (number, vector) in tables.references.iter().enumerate() {
                self.reference(tables.dimension, number, vector);
            }
        }
    }

    fn reference(&mut self, dimension: usize, number: usize, vector: &[i32]) {
        let [x, y, z] = filled(vector);
        self.input
            .extend([REFERENCE, byte(dimension), 0, byte(number)]);
        self.answers
            .push_str(&format!("reference {dimension} {number}: {x} {y} {z}\n"));
    }

    pub fn table(&mut self, kind: u8, tables: &Tables, case: usize) {
        let (word, table) = match kind {
            COMBINED => ("combined", &tables.combined[case]),
            _ => ("inverse", &tables.inverse[case]),
        };
        let (dimension, order) = (tables.dimension, tables.order);
        self.input
            .extend([kind, byte(dimension), byte(order), byte(case)]);
        self.answers.push_str(&format!(
            "{word} {dimension} {order} {case}: {}\n",
            shown(table)
        ));
    }
}

fn byte(number: usize) -> u8 {
    u8::try_from(number).expect("a record holds numbers up to 255")
}

fn checksum(table: &[usize]) -> u64 {
    table.iter().fold(0, |sum, &entry| {
        (sum * 65599 + entry as u64 + 1) % 4294967291
    })
}

fn shown(table: &[usize]) -> String {
    if table.len() > LONGEST_SHOWN {
        return format!("# {}", checksum(table));
    }
    let entries: Vec<String> = table.iter().map(usize::to_string).collect();
    entries.join(" ")
}

/// All references come first, then the tables, by dimension, order and case.
pub fn replay(all: &[Tables]) -> Replay {
    let mut replay = Replay::default();
    replay.references(all);
    for tables in all {
        for case in 0..tables.combined.len() {
            replay.table(COMBINED, tables, case);
            replay.table(INVERSE, tables, case);
        }
    }
    replay
}
