//! Blocks as Matrix Market texts. The text that was ported has no such calls.

use super::{Measure, SIZES};
use std::hint::black_box;

const COUNTS: [usize; SIZES] = [16, 128, 1024];

/// A block of whole numbers of all lengths, half of them negative, as bench/plain/beside.c has it.
fn block(count: usize) -> Vec<f64> {
    let entry = |k: usize| {
        let bits = (k as u64 + 1).wrapping_mul(0x9e37_79b9_7f4a_7c15);
        let size = (bits >> 11 >> (k % 53)) as f64;
        if k % 2 == 1 && size > 0.0 { -size } else { size }
    };
    (0..count * count).map(entry).collect()
}

/// The block and its text.
fn text(count: usize) -> (Vec<f64>, Vec<u8>) {
    let block = block(count);
    let mut text = vec![0; 54 + 18 * block.len()];
    let written = ours::write_block(count, count, &block, &mut text).expect("whole numbers");
    text.truncate(written);
    (block, text)
}

/// The least is a look at each byte.
pub fn read_block(size: usize) -> Measure {
    let count = COUNTS[size];
    let (mut block, text) = text(count);
    Measure {
        given: format!("{count} by {count}, {} bytes", text.len()),
        floor: text.len(),
        ours: Box::new(move || {
            black_box(ours::read_block(black_box(&text), &mut block)).map(drop).expect("a text");
        }),
        text: None,
    }
}

/// The least is a store of each byte.
pub fn write_block(size: usize) -> Measure {
    let count = COUNTS[size];
    let (block, mut text) = text(count);
    Measure {
        given: format!("{count} by {count}, {} bytes", text.len()),
        floor: text.len(),
        ours: Box::new(move || {
            black_box(ours::write_block(count, count, black_box(&block), &mut text)).map(drop).expect("whole numbers");
        }),
        text: None,
    }
}
