//! Blocks as texts of the public exchange format Matrix Market: array format, integer field,
//! general symmetry, entries by columns.

use core::error::Error;
use core::fmt;

use crate::refusal::{Refusal, told};
use crate::sys;

/// How large a block is.
#[derive(Clone, Copy, Debug, PartialEq, Eq, Hash)]
pub struct Size {
    /// At most 1,024.
    pub rows: usize,
    /// At most 1,024.
    pub columns: usize,
}

impl Size {
    /// How many entries the block has.
    #[must_use]
    pub fn entries(self) -> usize {
        self.rows * self.columns
    }
}

/// Why a text was not read, or a block not written: the refusal, and the line that it speaks of.
///
/// # Examples
///
/// ```
/// use bbfmm::{Refusal, TextRefusal, block_size};
///
/// let refused = block_size(b"%%MatrixMarket matrix array integer general\n").unwrap_err();
/// assert_eq!(refused, TextRefusal { refusal: Refusal::NoSize, line: Some(2) });
/// assert_eq!(refused.to_string(), "line 2: refused 14: there are no sizes of 0 to 1,024");
/// ```
#[derive(Clone, Copy, Debug, PartialEq, Eq, Hash)]
pub struct TextRefusal {
    /// What was at fault.
    pub refusal: Refusal,
    /// The line, from 1; none for a slice that has not its length.
    pub line: Option<u64>,
}

impl fmt::Display for TextRefusal {
    fn fmt(&self, out: &mut fmt::Formatter<'_>) -> fmt::Result {
        match self.line {
            Some(line) => write!(out, "line {line}: {}", self.refusal),
            None => self.refusal.fmt(out),
        }
    }
}

impl Error for TextRefusal {}

/// What an answer of the library says: number + 256 * line.
fn told_with_line(answer: u64) -> Result<(), TextRefusal> {
    let [number, ..] = answer.to_le_bytes();
    told(number).map_err(|refusal| {
        let line = answer / 256;
        let line = (line > 0).then_some(line);
        TextRefusal { refusal, line }
    })
}

/// How large the block of a text is, so that a caller knows how much to lend to [`read_block`].
/// What follows the size line is not looked at.
///
/// # Errors
///
/// [`Refusal::NoFirstLine`] and [`Refusal::NoSize`].
///
/// # Examples
///
/// ```
/// use bbfmm::{Size, TextRefusal, block_size};
///
/// let text = b"%%MatrixMarket matrix array integer general\n% a comment\n2 3\n";
/// assert_eq!(block_size(text)?, Size { rows: 2, columns: 3 });
/// # Ok::<(), TextRefusal>(())
/// ```
pub fn block_size(text: &[u8]) -> Result<Size, TextRefusal> {
    let mut sizes = [0; 2];
    told_with_line(sys::block_size(text, &mut sizes))?;
    let [rows, columns] = sizes;
    Ok(Size { rows, columns })
}

/// Reads the block of a text.
///
/// The first line is `%%MatrixMarket matrix array integer general`, the four words after the banner
/// in any letter case. Then come comments, which begin with %, and blank lines; the size line, rows
/// and columns, parted by spaces; and the entries, one a line, each an optional minus and digits, at
/// most 2^53 in size. The last newline may lack.
///
/// - `block`: rows by columns. Nothing is rounded, and -0 becomes +0.0.
///
/// # Errors
///
/// [`Refusal::NoFirstLine`], [`Refusal::NoSize`], [`Refusal::BadEntry`] and
/// [`Refusal::WrongCount`], that of the earliest line; and after these [`Refusal::WrongLength`].
///
/// # Examples
///
/// ```
/// use bbfmm::{Refusal, Size, TextRefusal, block_size, read_block};
///
/// let text = b"%%MatrixMarket matrix array integer general\n2 2\n1\n-2\n30\n-0\n";
/// let mut block = vec![0.0; block_size(text)?.entries()];
/// assert_eq!(read_block(text, &mut block)?, Size { rows: 2, columns: 2 });
/// assert_eq!(block, [1.0, -2.0, 30.0, 0.0]);
///
/// let text = b"%%MatrixMarket matrix array integer general\n2 2\n1\n+2\n30\n0\n";
/// let refused = TextRefusal { refusal: Refusal::BadEntry, line: Some(4) };
/// assert_eq!(read_block(text, &mut block), Err(refused));
/// # Ok::<(), TextRefusal>(())
/// ```
pub fn read_block(text: &[u8], block: &mut [f64]) -> Result<Size, TextRefusal> {
    let mut sizes = [0; 2];
    told_with_line(sys::read_block(text, block, &mut sizes))?;
    let [rows, columns] = sizes;
    Ok(Size { rows, columns })
}

/// Writes a block as a text, which [`read_block`] reads as the same block, and answers how many
/// bytes that are.
///
/// - `block`: rows by columns, each entry a whole number of at most 2^53 in size, and not -0.0.
/// - `text`: at least as long as what is written; 54 bytes and 18 for each entry always suffice.
///   Bytes past the text stay as lent.
///
/// # Errors
///
/// [`Refusal::NoSize`] at line 2; then [`Refusal::WrongLength`] for the block; then
/// [`Refusal::BadEntry`] at the line that the entry would have; then [`Refusal::WrongLength`] for
/// the text.
///
/// # Examples
///
/// ```
/// use bbfmm::{Refusal, TextRefusal, write_block};
///
/// let mut text = [0; 54 + 2 * 18];
/// let written = write_block(1, 2, &[5.0, -6.0], &mut text)?;
/// assert_eq!(&text[..written], b"%%MatrixMarket matrix array integer general\n1 2\n5\n-6\n");
///
/// let refused = TextRefusal { refusal: Refusal::BadEntry, line: Some(4) };
/// assert_eq!(write_block(1, 2, &[5.0, 0.5], &mut text), Err(refused));
/// # Ok::<(), TextRefusal>(())
/// ```
pub fn write_block(
    rows: usize,
    columns: usize,
    block: &[f64],
    text: &mut [u8],
) -> Result<usize, TextRefusal> {
    let mut written = [0];
    told_with_line(sys::write_block(rows, columns, block, text, &mut written))?;
    Ok(written[0])
}
