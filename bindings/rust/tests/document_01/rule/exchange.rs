//! Matrix Market texts. A rule answers what is read or written, or a number and a line, which is 0
//! for a buffer of another length.

use std::ops::RangeInclusive;

const MOST: u64 = 1_024;
const LARGEST: u64 = 1 << 53;
const FIRST: &str = "%%MatrixMarket matrix array integer general";

pub type Fault = (u8, u64);

/// Lines end at byte 10 alone, and a final newline begins no line.
fn lines(text: &[u8]) -> Vec<&[u8]> {
    let mut lines: Vec<&[u8]> = text.split(|byte| *byte == 10).collect();
    if lines.last().is_some_and(|last| last.is_empty()) {
        lines.pop();
    }
    lines
}

/// Digits alone, at least one; what they say, where that is in the range.
fn number(digits: &[u8], range: RangeInclusive<u64>) -> Option<u64> {
    let are_digits = !digits.is_empty() && digits.iter().all(u8::is_ascii_digit);
    let start = digits
        .iter()
        .position(|digit| *digit != b'0')
        .unwrap_or(digits.len());
    let text = core::str::from_utf8(&digits[start..])
        .ok()
        .filter(|_| are_digits)?;
    let number = if text.is_empty() {
        0
    } else {
        text.parse().ok()?
    };
    range.contains(&number).then_some(number)
}

fn is_first(line: &[u8]) -> bool {
    let (banner, words) = FIRST.as_bytes().split_at("%%MatrixMarket".len());
    line.strip_prefix(banner)
        .is_some_and(|rest| rest.eq_ignore_ascii_case(words))
}

/// A comment, or a blank line.
fn is_passed_over(line: &[u8]) -> bool {
    line.first() == Some(&b'%') || line.iter().all(|byte| *byte == b' ')
}

fn sizes(line: &[u8]) -> Option<(usize, usize)> {
    let gap = line.iter().position(|byte| *byte == b' ')?;
    let spaces = line[gap..].iter().take_while(|byte| **byte == b' ').count();
    let rows = number(&line[..gap], 0..=MOST)?;
    let columns = number(&line[gap + spaces..], 0..=MOST)?;
    Some((rows as usize, columns as usize))
}

fn entry(line: &[u8]) -> Option<f64> {
    match line.strip_prefix(b"-") {
        Some(digits) => number(digits, 0..=LARGEST).map(|size| 0.0 - size as f64),
        None => number(line, 0..=LARGEST).map(|size| size as f64),
    }
}

/// Rows, columns, and the number of the size line.
fn head(lines: &[&[u8]]) -> Result<(usize, usize, usize), Fault> {
    if !lines.first().is_some_and(|line| is_first(line)) {
        return Err((13, 1));
    }
    let passed = lines[1..]
        .iter()
        .take_while(|line| is_passed_over(line))
        .count();
    let (rows, columns) = lines
        .get(1 + passed)
        .and_then(|line| sizes(line))
        .ok_or((14, 2 + passed as u64))?;
    Ok((rows, columns, 2 + passed))
}

pub fn block_size(text: &[u8]) -> Result<(usize, usize), Fault> {
    head(&lines(text)).map(|(rows, columns, _)| (rows, columns))
}

/// Rows, columns and the block, which is lent with some length.
pub fn read_block(text: &[u8], length: usize) -> Result<(usize, usize, Vec<f64>), Fault> {
    let lines = lines(text);
    let (rows, columns, line) = head(&lines)?;
    let mut block = Vec::new();
    for place in line..line + rows * columns {
        let found = lines.get(place).ok_or((16, 1 + place as u64))?;
        block.push(entry(found).ok_or((15, 1 + place as u64))?);
    }
    let end = line + rows * columns;
    if lines.len() > end {
        return Err((16, 1 + end as u64));
    }
    if length != block.len() {
        return Err((7, 0));
    }
    Ok((rows, columns, block))
}

/// What is written into a text that is lent with some length.
pub fn write_block(
    rows: usize,
    columns: usize,
    block: &[f64],
    length: usize,
) -> Result<Vec<u8>, Fault> {
    if rows as u64 > MOST || columns as u64 > MOST {
        return Err((14, 2));
    }
    if block.len() != rows * columns {
        return Err((7, 0));
    }
    let mut text = format!("{FIRST}\n{rows} {columns}\n");
    for (place, entry) in block.iter().enumerate() {
        let is_zero = entry.to_bits() == 0;
        let is_whole = entry.abs() <= LARGEST as f64 && entry.trunc() == *entry && *entry != 0.0;
        if !is_zero && !is_whole {
            return Err((15, 3 + place as u64));
        }
        text.push_str(&format!("{}\n", *entry as i64));
    }
    if text.len() > length {
        return Err((7, 0));
    }
    Ok(text.into_bytes())
}
