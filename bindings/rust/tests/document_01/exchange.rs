//! Matrix Market texts: good ones, damaged ones, and blocks that are written and read back.

use bbfmm::{Refusal, Size, TextRefusal, block_size, read_block, write_block};

use crate::draw::{Draw, SPECIAL};
use crate::held::{Tally, bits};
use crate::rule::exchange as rule;

const FIRST: &[u8] = b"%%MatrixMarket matrix array integer general\n";
const LARGEST: f64 = 9_007_199_254_740_992.0;
/// What a lent buffer holds before a call.
const UNREAD: f64 = -7.5;
const UNWRITTEN: u8 = 0xa5;

/// The number of an answer must have the rule's line, or none.
fn hold_line<A, R>(answer: &Result<A, TextRefusal>, ruled: &Result<R, rule::Fault>) {
    let line = answer
        .as_ref()
        .err()
        .map(|refused| refused.line.unwrap_or(0));
    let expected = ruled.as_ref().err().map(|(_, line)| *line);
    assert_eq!(line, expected);
}

/// An answer without its line, for the tally.
fn numbered<A>(answer: Result<A, TextRefusal>) -> Result<A, Refusal> {
    answer.map_err(|refused| refused.refusal)
}

fn unlined<R>(ruled: Result<R, rule::Fault>) -> Result<R, u8> {
    ruled.map_err(|(number, _)| number)
}

// TEXTS

fn entry(draw: &mut Draw) -> f64 {
    let size = (draw.bits() >> (11 + draw.below(53))) as f64;
    let size = draw.one_of(&[size, size, size, 0.0, LARGEST, LARGEST - 1.0]);
    if size > 0.0 && draw.one_in(2) {
        -size
    } else {
        size
    }
}

/// A good text, with zeros before some numbers, and now and then comments and blank lines.
fn text(draw: &mut Draw, rows: usize, columns: usize, block: &[f64]) -> Vec<u8> {
    let mut text = FIRST.to_vec();
    for _ in 0..draw.below(3) {
        text.extend_from_slice(draw.one_of(&[&b"% 1 1\n"[..], b"\n", b"   \n", b"%\n"]));
    }
    let gap = draw.one_of(&[" ", "  ", "    "]);
    text.extend(format!("{rows}{gap}0{columns}\n").bytes());
    for entry in block {
        let sign = if *entry < 0.0 || (*entry == 0.0 && draw.one_in(2)) {
            "-"
        } else {
            ""
        };
        let zeros = "0".repeat(if draw.one_in(8) { draw.below(40) } else { 0 });
        text.extend(format!("{sign}{zeros}{}\n", entry.abs()).bytes());
    }
    if draw.one_in(3) {
        text.pop();
    }
    text
}

/// A byte changed, dropped, doubled or put in, or the end cut off; mostly past the first line.
fn damage(draw: &mut Draw, text: &mut Vec<u8>) {
    let start = if draw.one_in(8) {
        0
    } else {
        FIRST.len().min(text.len())
    };
    if start == text.len() {
        return;
    }
    let place = start + draw.below(text.len() - start);
    let byte = draw.one_of(b"0123456789-- \n\n%+.\t\r");
    match draw.below(5) {
        0 => text[place] = byte,
        1 => drop(text.remove(place)),
        2 => text.insert(place, text[place]),
        3 => text.insert(place, byte),
        _ => text.truncate(place),
    }
}

/// Reads a text into a block of this length, and holds all that is left to the rule.
fn hold_reading(tally: &mut [Tally; 2], text: &[u8], length: usize) {
    let ruled = rule::block_size(text);
    let answer = block_size(text);
    hold_line(&answer, &ruled);
    let answer = numbered(answer);
    if let Some((rows, columns)) = tally[0].number(&text, &answer, unlined(ruled)) {
        assert_eq!(answer, Ok(Size { rows, columns }), "{text:?}");
    }
    let mut block = vec![UNREAD; length];
    let ruled = rule::read_block(text, length);
    let answer = read_block(text, &mut block);
    hold_line(&answer, &ruled);
    let answer = numbered(answer);
    match tally[1].number(&text, &answer, unlined(ruled)) {
        Some((rows, columns, expected)) => {
            assert_eq!(answer, Ok(Size { rows, columns }), "{text:?}");
            assert_eq!(bits(&block), bits(&expected), "{text:?}");
        }
        None => assert_eq!(block, vec![UNREAD; length], "{text:?}"),
    }
}

#[test]
fn reading_is_ruled() {
    let mut draw = Draw::new(61);
    let mut tally = <[Tally; 2]>::default();
    for _ in 0..60_000 {
        let (rows, columns) = (draw.below(4), draw.below(4));
        let block: Vec<f64> = (0..rows * columns).map(|_| entry(&mut draw)).collect();
        let mut text = text(&mut draw, rows, columns, &block);
        for _ in 0..draw.below(3) {
            damage(&mut draw, &mut text);
        }
        let sizes = rule::block_size(&text).unwrap_or((rows, columns));
        let length = draw.length((sizes.0 * sizes.1).min(4_096));
        hold_reading(&mut tally, &text, length);
    }
    tally[0].reached("block_size", &[0, 13, 14]);
    tally[1].reached("read_block", &[0, 7, 13, 14, 15, 16]);
}

/// Sizes and entries about their limits, and numbers that no word holds.
#[test]
fn numbers_are_ruled() {
    let mut tally = <[Tally; 2]>::default();
    let long = format!("1{}", "0".repeat(400));
    let numbers = [
        "0",
        "1",
        "1024",
        "1025",
        "01024",
        "4294967297",
        "9007199254740992",
        "9007199254740993",
        "9223372036854775808",
        "18446744073709551616",
        "18446744073709551617",
        &long,
        "+1",
        "-1",
        "",
    ];
    for left in numbers {
        for right in numbers {
            let sizes = [FIRST, left.as_bytes(), b" ", right.as_bytes(), b"\n"].concat();
            hold_reading(&mut tally, &sizes, 0);
            let entries = [FIRST, b"2 1\n", left.as_bytes(), b"\n-", right.as_bytes()].concat();
            hold_reading(&mut tally, &entries, 2);
        }
    }
    tally[0].reached("sizes about their limits", &[0, 14]);
    tally[1].reached("entries about their limits", &[0, 14, 15, 16]);
}

// BLOCKS

fn written_entry(draw: &mut Draw) -> f64 {
    match draw.below(60) {
        0 => draw.one_of(&SPECIAL),
        1 => draw.one_of(&[0.5, LARGEST + 2.0, -LARGEST - 2.0, 1e300]),
        _ => entry(draw),
    }
}

fn hold_writing(tally: &mut Tally, rows: usize, columns: usize, block: &[f64], length: usize) {
    let mut text = vec![UNWRITTEN; length];
    let ruled = rule::write_block(rows, columns, block, length);
    let answer = write_block(rows, columns, block, &mut text);
    hold_line(&answer, &ruled);
    let answer = numbered(answer);
    let expected = tally.number(&(rows, columns, block), &answer, unlined(ruled));
    let written = expected.as_ref().map_or(0, Vec::len);
    assert_eq!(answer.unwrap_or(0), written);
    assert_eq!(&text[..written], &expected.unwrap_or_default());
    assert!(text[written..].iter().all(|byte| *byte == UNWRITTEN));
}

#[test]
fn writing_is_ruled() {
    let mut draw = Draw::new(62);
    let mut tally = Tally::default();
    for _ in 0..40_000 {
        let (rows, columns) = (draw.below(6), draw.below(6));
        let length = draw.length(rows * columns);
        let block: Vec<f64> = (0..length).map(|_| written_entry(&mut draw)).collect();
        let right =
            rule::write_block(rows, columns, &block, usize::MAX).map_or(60, |text| text.len());
        let room = draw.one_of(&[right, right, right - 1, right + 1, right + 50, 0]);
        let told = if draw.one_in(20) {
            draw.one_of(&[1_025, 1 << 32, usize::MAX])
        } else {
            rows
        };
        hold_writing(&mut tally, told, columns, &block, room);
    }
    tally.reached("write_block", &[0, 7, 14, 15]);
}

#[test]
fn what_is_written_is_read() {
    let mut draw = Draw::new(63);
    for (rows, columns) in [
        (0, 0),
        (1, 1),
        (1_024, 0),
        (1_024, 3),
        (2, 1_024),
        (40, 33),
        (7, 9),
    ] {
        let block: Vec<f64> = (0..rows * columns).map(|_| entry(&mut draw)).collect();
        let mut text = vec![UNWRITTEN; 54 + 18 * block.len()];
        let written = write_block(rows, columns, &block, &mut text).expect("it can be written");
        let mut back = vec![UNREAD; block.len()];
        let size = read_block(&text[..written], &mut back).expect("it was written");
        assert_eq!(size, Size { rows, columns });
        assert_eq!(bits(&back), bits(&block));
    }
}
