//! Why a call did nothing.

use core::error::Error;
use core::fmt;

/// Why a call did nothing: what it was given lies outside its limits. Every lent buffer is as it
/// came. With several faults the one with the lowest number is told.
///
/// # Examples
///
/// ```
/// use bbfmm::{Refusal, look_up};
///
/// let refusal = look_up(3, [0, -2, 4]).unwrap_err();
/// assert_eq!(refusal, Refusal::NoEntry);
/// assert_eq!(refusal.number(), 4);
/// assert_eq!(refusal.to_string(), "refused 4: an entry of the vector is outside -3 to 3");
/// ```
#[derive(Clone, Copy, Debug, PartialEq, Eq, Hash)]
#[repr(u8)]
pub enum Refusal {
    /// The dimension is not 1, 2 or 3.
    NoDimension = 1,
    /// The order is not 1 to 16.
    NoOrder = 2,
    /// There are more than 4,096 points, more than 1,024 entries, singular values, rows or columns,
    /// or no singular values. A block of distances has N rows and N columns.
    NoCount = 3,
    /// One of a vector's first entries, as many as the dimension, is outside -3 to 3.
    NoEntry = 4,
    /// The case is not below 2, 8, 48, the reference number not below 2, 7, 16, or the child not
    /// below 2, 4, 8, for dimension 1, 2, 3; or the node is not below N.
    NoCase = 5,
    /// An entry of a vector past the dimension is not 0.
    NotZero = 6,
    /// A lent slice has not exactly the length that the call states.
    WrongLength = 7,
    /// The cell's length is not from 2^-20 to 2^30; NaN is not.
    NoCell = 8,
    /// A coordinate of a point or of the centre is not finite; or a reference coordinate is not.
    NotFinite = 9,
    /// A byte of a mask is not 0 or 1.
    NoMask = 10,
    /// A point to be scaled does not belong to the cell: one of its reference coordinates, (point -
    /// centre) / (length * 0.5), is above 1 + 2^-20 in size. Reference coordinates that are given as
    /// such may be.
    OutOfCell = 11,
    /// The floor of the oxygen deficiency is not finite and above 0.
    NoFloor = 12,
    /// A Matrix Market text has not the first line that is read.
    NoFirstLine = 13,
    /// A Matrix Market text has no size line, or a size, also of a block to write, is above 1,024.
    NoSize = 14,
    /// An entry is not a whole number of at most 2^53 in size, or, in writing, is -0.0.
    BadEntry = 15,
    /// A Matrix Market text has too few entries, or too many.
    WrongCount = 16,
    /// The set of nodes is not 0 or 1.
    NoSet = 17,
}

impl Refusal {
    /// Every refusal, by rising number.
    pub const ALL: [Refusal; 17] = [
        Refusal::NoDimension,
        Refusal::NoOrder,
        Refusal::NoCount,
        Refusal::NoEntry,
        Refusal::NoCase,
        Refusal::NotZero,
        Refusal::WrongLength,
        Refusal::NoCell,
        Refusal::NotFinite,
        Refusal::NoMask,
        Refusal::OutOfCell,
        Refusal::NoFloor,
        Refusal::NoFirstLine,
        Refusal::NoSize,
        Refusal::BadEntry,
        Refusal::WrongCount,
        Refusal::NoSet,
    ];

    /// The number of the refusal, from 1 to 17, as the library and its documents give it.
    #[must_use]
    pub fn number(self) -> u8 {
        self as u8
    }

    /// What was at fault, in words.
    fn fault(self) -> &'static str {
        match self {
            Refusal::NoDimension => "the dimension is not 1, 2 or 3",
            Refusal::NoOrder => "the order is not 1 to 16",
            Refusal::NoCount => "a count is out of range",
            Refusal::NoEntry => "an entry of the vector is outside -3 to 3",
            Refusal::NoCase => "the case, reference number, child or node is too large",
            Refusal::NotZero => "an entry of the vector past the dimension is not 0",
            Refusal::WrongLength => "a lent slice has not its length",
            Refusal::NoCell => "the length of the cell is not from 2^-20 to 2^30",
            Refusal::NotFinite => "a coordinate is not finite",
            Refusal::NoMask => "a byte of the mask is not 0 or 1",
            Refusal::OutOfCell => "a point is out of the cell",
            Refusal::NoFloor => "the floor is not finite and above 0",
            Refusal::NoFirstLine => "the first line is another",
            Refusal::NoSize => "there are no sizes of 0 to 1,024",
            Refusal::BadEntry => "an entry is not whole, too large, or -0.0",
            Refusal::WrongCount => "there are too few entries, or too many",
            Refusal::NoSet => "the set of nodes is not 0 or 1",
        }
    }
}

impl fmt::Display for Refusal {
    fn fmt(&self, out: &mut fmt::Formatter<'_>) -> fmt::Result {
        write!(out, "refused {}: {}", self.number(), self.fault())
    }
}

impl Error for Refusal {}

/// What the number that a call answers says: 0 is done.
pub(crate) fn told(number: u8) -> Result<(), Refusal> {
    if number == 0 {
        return Ok(());
    }
    let place = usize::from(number) - 1;
    Err(*Refusal::ALL
        .get(place)
        .expect("a libbbfmm.a of this version answers 0 to 17"))
}
