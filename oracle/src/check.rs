//! Checks the answers before they are written, and prints how many there are.

use crate::lookup::{self, Lookup};
use crate::replay::Replay;
use oracle::chebyshev::reach::Tables;

/// Whether `table` holds each number below its length once, and `inverse` leads back.
fn undone(table: &[usize], inverse: &[usize]) -> bool {
    let mut sorted = table.to_vec();
    sorted.sort_unstable();
    sorted.into_iter().eq(0..table.len())
        && inverse.len() == table.len()
        && (0..table.len()).all(|place| inverse[table[place]] == place)
}

/// Each table is a permutation undone by its inverse, and there are as many as there should be.
pub fn tables(all: &[Tables]) -> Result<(), String> {
    for tables in all {
        let place = format!("dimension {}, order {}", tables.dimension, tables.order);
        let nodes = tables.order.pow(tables.dimension as u32);
        let (references, cases) = [(2, 2), (7, 8), (16, 48)][tables.dimension - 1];
        if tables.references.len() != references
            || tables.combined.len() != cases
            || tables.inverse.len() != cases
        {
            return Err(format!("{place}: an unexpected number of tables"));
        }
        for (case, table) in tables.combined.iter().enumerate() {
            if table.len() != nodes || !undone(table, &tables.inverse[case]) {
                return Err(format!("{place}, case {case}: the inverse does not undo"));
            }
        }
    }
    Ok(())
}

/// Every transfer vector has a case and a reference, and they do not depend on the order.
pub fn lookups(all: &[Tables]) -> Result<(), String> {
    for tables in all {
        let vectors = 7usize.pow(tables.dimension as u32);
        if tables.vectors.len() != vectors
            || tables.case_of.len() != vectors
            || tables.reference_of.len() != vectors
        {
            return Err(String::from(
                "a transfer vector has no case or no reference",
            ));
        }
    }
    for pair in all.windows(2).filter(|p| p[0].dimension == p[1].dimension) {
        if pair[0].vectors != pair[1].vectors
            || pair[0].references != pair[1].references
            || pair[0].case_of != pair[1].case_of
            || pair[0].reference_of != pair[1].reference_of
        {
            return Err(String::from("a case or a reference depends on the order"));
        }
    }
    Ok(())
}

/// The file `refused` holds refused records only, and no other file holds any.
pub fn refusals(lookup: &Lookup) -> Result<(), String> {
    for file in &lookup.files {
        let refused = file.answers.lines().filter(|l| l.starts_with("refused"));
        let wanted = match file.name {
            "refused" => file.content.len() / 4,
            _ => 0,
        };
        if refused.count() != wanted {
            return Err(format!("{}: wrong records are refused", file.name));
        }
    }
    Ok(())
}

/// The sample of the specification.
pub fn sample(all: &[Tables]) -> Result<(), String> {
    let records = [
        3, 0, 254, 1, 1, 253, 0, 0, 2, 3, 3, 0, 2, 1, 255, 0, 3, 4, 0, 0, 2,
    ];
    let wanted = "158 33 1 far\n0 0 1 far\n48 6 6 far\n30 4 0 near\nrefused 4\nshort 1\n";
    let square = all
        .iter()
        .find(|tables| tables.dimension == 2 && tables.order == 2)
        .ok_or("no tables for dimension 2, order 2")?;
    if lookup::answers(&records, all) == wanted
        && square.combined[3] == [2, 0, 3, 1]
        && square.inverse[3] == [1, 3, 0, 2]
    {
        return Ok(());
    }
    Err(String::from("the sample of the specification differs"))
}

/// Prints what was written and what was checked.
pub fn count(all: &[Tables], replay: &Replay, lookup: &Lookup) {
    let tables: usize = all.iter().map(|tables| tables.combined.len()).sum();
    let records = replay.input.len() / 4;
    println!(
        "turn: {records} records ({} references, {tables} combined and {tables} inverse \
         tables), {} lines",
        records - 2 * tables,
        replay.answers.lines().count()
    );
    for file in &lookup.files {
        println!(
            "lookup {}: {} records and {} bytes over, {} lines",
            file.name,
            file.content.len() / 4,
            file.content.len() % 4,
            file.answers.lines().count()
        );
    }
    println!("lookup: {} lines", lookup.answers().lines().count());
    println!("checked: {tables} combined tables are permutations and their inverses undo them");
    println!("checked: each vector has a case and a reference, the same for every order");
    println!("checked: the sample agrees");
}
