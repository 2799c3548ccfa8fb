//! Cross approximation.

use crate::refusal::{Refusal, told};
use crate::sys;

/// How a cross approximation goes on where it finds nothing. Take [`Mode::Restart`], unless the
/// answers must be those of the ported program, which has the old mode only.
#[derive(Clone, Copy, Debug, PartialEq, Eq, Hash)]
pub enum Mode {
    /// The run ends at the first row without a usable pivot, and it may read a row and a column
    /// twice. Rows may be left that were never read.
    Old,
    /// The run goes on with the lowest row that was not read yet, where a row has no usable pivot,
    /// and where the row that would be next was read already. No row and no column is read twice.
    Restart,
}

/// Why a cross approximation ended. None of these bounds the error: what was never read is unknown
/// to the run.
#[derive(Clone, Copy, Debug, PartialEq, Eq, Hash)]
#[repr(u8)]
pub enum Stop {
    /// The last term is small against the estimate: norm <= (epsilon*epsilon) * estimate.
    Tolerable = 1,
    /// The row that was read has no usable pivot: its pivot is below 2^-52 in size, which a NaN is
    /// not. This says nothing of other rows. Only the old mode ends so.
    Spent = 2,
    /// There are as many terms as the block has rows or columns.
    UsedUp = 3,
    /// Every row has been tried: it was read, and gave a term or had no usable pivot, which is a
    /// residual of at least 2^-52 in a column not used before; a NaN is none. Only restart mode
    /// ends so.
    AllTried = 4,
}

impl Stop {
    /// The number of the stop, from 1 to 4, as the library and its documents give it.
    #[must_use]
    pub fn number(self) -> u8 {
        self as u8
    }

    /// The stop with this number.
    fn with_number(number: usize) -> Stop {
        match number {
            1 => Stop::Tolerable,
            2 => Stop::Spent,
            3 => Stop::UsedUp,
            4 => Stop::AllTried,
            _ => unreachable!("a libbbfmm.a of this version answers 1 to 4"),
        }
    }
}

/// What a cross approximation tells.
#[derive(Clone, Copy, Debug, PartialEq)]
pub struct Report {
    /// How many terms there are: so many columns of U and of V are filled, and so many columns of
    /// the block were read.
    pub rank: usize,
    /// Why the run ended.
    pub stop: Stop,
    /// How many rows were read, those without a usable pivot too.
    pub rows_read: usize,
    /// The estimate of the approximation's squared norm.
    pub estimate: f64,
    /// How near to nothing the divisions came: the smallest size among the pivots that rows were
    /// divided by. A NaN among these is passed over. Where none is a number it is +0.0, and
    /// otherwise at least 2^-52.
    pub smallest: f64,
}

/// The buffers of a cross approximation: of a block of m rows and n columns, with k for the lesser
/// of the two.
#[derive(Debug)]
pub struct Buffers<'a> {
    /// U, m by k. Beyond the rank its columns stay as lent.
    pub u: &'a mut [f64],
    /// V, n by k. Beyond the rank its columns stay as lent.
    pub v: &'a mut [f64],
    /// k entries in the old mode, m in restart mode. They become the rows that were read, in order,
    /// those without a usable pivot too; unused places stay as lent.
    pub row_list: &'a mut [u16],
    /// k entries. They become the columns that were read, in order; unused places stay as lent.
    pub column_list: &'a mut [u16],
    /// n entries, room to work in. They become the row that was last read, if one was, less the
    /// earlier terms, and multiplied by 1/pivot if its pivot was usable.
    pub row: &'a mut [f64],
    /// m entries, room to work in. They become the column that was last read, if one was, less the
    /// earlier terms.
    pub column: &'a mut [f64],
}

/// Approximates a block of at most 1,024 rows and 1,024 columns by U times the transpose of V. The
/// run stops by its own test, which sees only the rows and columns that it read: epsilon bounds no
/// error.
///
/// - `samples`: rows by columns, the block.
/// - `mode`: how the run goes on where it finds nothing. In restart mode `row_list` has an entry a
///   row, so that it is longer than in the old mode where the block has more rows than columns.
///
/// # Errors
///
/// [`Refusal::NoCount`] and [`Refusal::WrongLength`].
///
/// # Examples
///
/// The unit block of two by two. The old mode ends with one row untouched, after reading row 0
/// twice. Restart mode reads both rows, and finds both terms.
///
/// ```
/// use bbfmm::{Buffers, Mode, Refusal, Report, Stop, aca_partial_pivoting};
///
/// // The rows (1, 0) and (0, 1).
/// let samples = [1.0, 0.0, 0.0, 1.0];
/// let (mut u, mut v) = ([0.0; 4], [0.0; 4]);
/// let (mut row_list, mut column_list) = ([9; 2], [9; 2]);
/// let (mut row, mut column) = ([0.0; 2], [0.0; 2]);
/// let mut buffers = Buffers {
///     u: &mut u,
///     v: &mut v,
///     row_list: &mut row_list,
///     column_list: &mut column_list,
///     row: &mut row,
///     column: &mut column,
/// };
///
/// let report = aca_partial_pivoting(2, 2, &samples, 0.5, Mode::Old, &mut buffers)?;
/// let expected =
///     Report { rank: 1, stop: Stop::Spent, rows_read: 2, estimate: 1.0, smallest: 1.0 };
/// assert_eq!(report, expected);
/// assert_eq!(buffers.row_list, [0, 0]);
/// assert_eq!(buffers.column_list, [0, 9]);
///
/// let report = aca_partial_pivoting(2, 2, &samples, 0.5, Mode::Restart, &mut buffers)?;
/// let expected =
///     Report { rank: 2, stop: Stop::UsedUp, rows_read: 2, estimate: 2.0, smallest: 1.0 };
/// assert_eq!(report, expected);
/// assert_eq!(buffers.row_list, [0, 1]);
/// assert_eq!(buffers.column_list, [0, 1]);
///
/// assert_eq!(
///     aca_partial_pivoting(2, 1_025, &samples, 0.5, Mode::Old, &mut buffers),
///     Err(Refusal::NoCount)
/// );
/// assert_eq!(u, [1.0, 0.0, 0.0, 1.0]);
/// assert_eq!(v, [1.0, 0.0, 0.0, 1.0]);
/// # Ok::<(), Refusal>(())
/// ```
///
/// A row of zeros ends the old mode at once. Restart mode tries the other rows too, and says when
/// there are no more.
///
/// ```
/// # use bbfmm::{Buffers, Mode, Refusal, Stop, aca_partial_pivoting};
/// // The rows (0), (3) and (6). Restart mode wants room for all three in `row_list`.
/// let samples = [0.0, 3.0, 6.0];
/// let (mut u, mut v) = ([0.0; 3], [0.0; 1]);
/// let (mut row_list, mut column_list) = ([9; 3], [9; 1]);
/// let (mut row, mut column) = ([0.0; 1], [0.0; 3]);
/// # let mut buffers = Buffers {
/// #     u: &mut u,
/// #     v: &mut v,
/// #     row_list: &mut row_list,
/// #     column_list: &mut column_list,
/// #     row: &mut row,
/// #     column: &mut column,
/// # };
/// let refused = aca_partial_pivoting(3, 1, &samples, 0.5, Mode::Old, &mut buffers);
/// assert_eq!(refused, Err(Refusal::WrongLength));
///
/// let report = aca_partial_pivoting(3, 1, &samples, 0.5, Mode::Restart, &mut buffers)?;
/// assert_eq!((report.rank, report.stop, report.rows_read), (1, Stop::UsedUp, 2));
/// assert_eq!(report.smallest, 3.0);
///
/// let report = aca_partial_pivoting(3, 1, &[0.0; 3], 0.5, Mode::Restart, &mut buffers)?;
/// assert_eq!((report.rank, report.stop, report.rows_read), (0, Stop::AllTried, 3));
/// assert_eq!(report.smallest, 0.0);
/// assert_eq!(row_list, [0, 1, 2]);
/// assert_eq!(u, [0.0, 3.0, 6.0]);
/// # Ok::<(), Refusal>(())
/// ```
pub fn aca_partial_pivoting(
    rows: usize,
    columns: usize,
    samples: &[f64],
    epsilon: f64,
    mode: Mode,
    buffers: &mut Buffers<'_>,
) -> Result<Report, Refusal> {
    let mut counts = [0; 3];
    let mut numbers = [0.0; 2];
    told(sys::aca_partial_pivoting(
        rows,
        columns,
        samples,
        epsilon,
        mode == Mode::Restart,
        buffers,
        &mut counts,
        &mut numbers,
    ))?;
    let [rank, stop, rows_read] = counts;
    let [estimate, smallest] = numbers;
    Ok(Report {
        rank,
        stop: Stop::with_number(stop),
        rows_read,
        estimate,
        smallest,
    })
}
