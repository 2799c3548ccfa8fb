//! Puts a replay on floats together: cases of a header and bit patterns, and the line for each.

use std::collections::BTreeMap;

/// Lists longer than this are written as a checksum.
const LONGEST_SHOWN: usize = 32;

/// The bits that stand for every NaN.
const NAN: u64 = 0x7ff8_0000_0000_0000;

/// What a case asks for; what does not apply to its kind is 0.
#[derive(Clone, Copy, Default)]
pub struct Header {
    pub kind: u8,
    pub order: usize,
    pub dimension: usize,
    pub flag: bool,
    pub rows: usize,
}

/// The input stream, its answers, of one line a case, and how many cases there are of a kind.
#[derive(Default)]
pub struct Stream {
    pub input: Vec<u8>,
    pub answers: String,
    /// How many cases were checked to have no operation that rounds.
    pub unrounded: usize,
    /// How many crosses have a cross term of -0.0, where the rule has +0.0.
    pub negative_zeros: usize,
    counts: BTreeMap<u8, usize>,
}

impl Stream {
    /// Adds a case: its header, its floats, list after list, and its line.
    pub fn case(&mut self, header: Header, floats: &[&[f64]], line: &str) {
        let byte = |number| u8::try_from(number).expect("a number up to 255");
        let rows = u32::try_from(header.rows).expect("a number of 32 bits");
        self.input.extend([
            header.kind,
            byte(header.order),
            byte(header.dimension),
            u8::from(header.flag),
        ]);
        self.input.extend(rows.to_le_bytes());
        for &float in floats.iter().copied().flatten() {
            self.input.extend(bits(float).to_le_bytes());
        }
        self.answers.push_str(line);
        self.answers.push('\n');
        *self.counts.entry(header.kind).or_default() += 1;
    }

    /// Prints how many cases of each kind there are.
    pub fn count(&self, name: &str) {
        for (kind, count) in &self.counts {
            println!("{name}: {count} cases of kind {kind}");
        }
        println!(
            "{name}: checked: no operation rounds in {} cases",
            self.unrounded
        );
        println!(
            "{name}: a cross term of -0.0 in {} cases",
            self.negative_zeros
        );
        println!(
            "{name}: {} bytes, {} lines",
            self.input.len(),
            self.answers.lines().count()
        );
    }
}

fn bits(float: f64) -> u64 {
    if float.is_nan() { NAN } else { float.to_bits() }
}

/// Whether two lists hold the same bits, where every NaN has the same.
pub fn same(one: &[f64], other: &[f64]) -> bool {
    one.iter()
        .copied()
        .map(bits)
        .eq(other.iter().copied().map(bits))
}

pub fn checksum(list: &[f64]) -> u64 {
    list.iter()
        .flat_map(|&float| [bits(float) >> 32, bits(float) & 0xffff_ffff])
        .fold(0, |sum, half| (sum * 65599 + half + 1) % 4294967291)
}

/// The floats of a list, each after a space, or their checksum.
pub fn shown(list: &[f64]) -> String {
    if list.len() > LONGEST_SHOWN {
        return format!(" # {}", checksum(list));
    }
    list.iter()
        .map(|&float| match float.is_nan() {
            true => String::from(" nan"),
            false => format!(" {:016x}", float.to_bits()),
        })
        .collect()
}
