//! Graham's ratio at points of a cell, from the fields of three gases.

use crate::refusal::{Refusal, told};
use crate::sys;

/// A cell, and how many points in it are asked for.
#[derive(Clone, Copy, Debug, PartialEq)]
pub struct Cell {
    /// D, 1 to 3.
    pub dimension: usize,
    /// p, 1 to 16.
    pub order: usize,
    /// How long the cell is on each axis, from 2^-20 to 2^30.
    pub length: f64,
    /// P, how many points there are, at most 4,096.
    pub rows: usize,
}

/// The local expansions of the three gases: what each field is at the nodes of the cell, N entries
/// each, all in one unit, as per cent.
#[derive(Clone, Copy, Debug, PartialEq)]
pub struct Gases<'a> {
    /// CO.
    pub carbon_monoxide: &'a [f64],
    /// N2.
    pub nitrogen: &'a [f64],
    /// O2.
    pub oxygen: &'a [f64],
}

/// What [`graham_ratios`] answers at a point.
///
/// # Examples
///
/// ```
/// use bbfmm::Air;
///
/// assert_eq!(Air::with_number(2), Some(Air::Fresh));
/// assert_eq!(Air::Fresh.number(), 2);
/// assert_eq!(Air::with_number(3), None);
/// ```
#[derive(Clone, Copy, Debug, PartialEq, Eq, Hash)]
#[repr(u8)]
pub enum Air {
    /// There is a ratio. The deficiency is finite and not below the floor, and the ratio is finite.
    Ratio = 0,
    /// The field is unusable there: the deficiency is not finite, or it is not below the floor and
    /// the ratio is not finite.
    Unusable = 1,
    /// The air is fresh: the deficiency is finite and below the floor, whatever carbon monoxide is.
    Fresh = 2,
}

impl Air {
    /// The number of the answer, from 0 to 2, as the library and its documents give it.
    #[must_use]
    pub fn number(self) -> u8 {
        self as u8
    }

    /// The answer with this number. A byte above 2 is none: no call has written it.
    #[must_use]
    pub fn with_number(number: u8) -> Option<Air> {
        match number {
            0 => Some(Air::Ratio),
            1 => Some(Air::Unusable),
            2 => Some(Air::Fresh),
            _ => None,
        }
    }
}

/// Graham's ratio, 100 * CO / (0.265 * N2 - O2), at points of a cell.
///
/// At each point a gas is the sum, over the nodes in rising order, of what the node counts for
/// times the gas's entry there. The oxygen deficiency is (0.265 * N2) - O2. First it is asked
/// whether that is finite, then whether it is below the floor, and only then the ratio is formed,
/// (100 * CO) / deficiency, and asked whether it is finite. A deficiency equal to the floor has a
/// ratio.
///
/// - `floor`: the least deficiency that has a ratio, finite and above 0, in the unit of the gases.
/// - `centre`: D entries, the middle of the cell.
/// - `node_polynomials`: p by p. Column k has T_k at the nodes.
/// - `points`: P by D, a row a point, not scaled yet. They become what [`scale_points`] leaves.
/// - `gases`: N entries each.
/// - `values`: P by N, and `factors`: P by D * p, room to work in. They become what
///   [`get_approximation_coefficients`] leaves without gradients.
/// - `answers`: P bytes. Each becomes the number of an [`Air`].
/// - `ratios`: P entries. Where the answer is [`Air::Ratio`] the entry becomes the ratio; elsewhere
///   it stays as lent.
///
/// [`get_approximation_coefficients`]: crate::get_approximation_coefficients
/// [`scale_points`]: crate::scale_points
///
/// # Errors
///
/// [`Refusal::NoDimension`], [`Refusal::NoOrder`], [`Refusal::NoCount`], [`Refusal::WrongLength`],
/// [`Refusal::NoCell`], [`Refusal::NotFinite`], [`Refusal::OutOfCell`] and [`Refusal::NoFloor`],
/// which is told with no points too.
///
/// # Examples
///
/// ```
/// use bbfmm::{Air, Cell, Gases, Refusal, graham_ratios};
///
/// // A gallery of length 4 about 0, from an old goaf to fresh air, and its two ends. With these
/// // polynomials a field goes straight from its first entry, at one end, to its second.
/// let cell = Cell { dimension: 1, order: 2, length: 4.0, rows: 2 };
/// let node_polynomials = [1.0, 1.0, -0.5, 0.5];
/// let gases = Gases {
///     carbon_monoxide: &[0.0060, 0.0001],
///     nitrogen: &[86.00, 79.04],
///     oxygen: &[9.79, 20.93],
/// };
/// let mut points = [-2.0, 2.0];
/// let (mut values, mut factors) = ([0.0; 4], [0.0; 4]);
/// let (mut answers, mut ratios) = ([9; 2], [-1.0; 2]);
/// graham_ratios(
///     cell,
///     0.1,
///     &[0.0],
///     &node_polynomials,
///     &mut points,
///     gases,
///     &mut values,
///     &mut factors,
///     &mut answers,
///     &mut ratios,
/// )?;
/// let airs = answers.map(|answer| Air::with_number(answer).expect("a call wrote it"));
/// assert_eq!(airs, [Air::Ratio, Air::Fresh]);
/// assert!((ratios[0] - 0.6 / 13.0).abs() < 1e-12);
/// assert_eq!(ratios[1], -1.0);
///
/// // A reading that failed spoils the field of its cell, and no ratio is given.
/// points = [-2.0, 2.0];
/// let failed = Gases { oxygen: &[f64::NAN, 20.93], ..gases };
/// let mut ask = |floor| {
///     graham_ratios(
///         cell, floor, &[0.0], &node_polynomials, &mut points, failed, &mut values, &mut factors,
///         &mut answers, &mut ratios,
///     )
/// };
/// assert_eq!(ask(0.0), Err(Refusal::NoFloor));
/// assert_eq!(ask(0.1), Ok(()));
/// assert_eq!(answers, [Air::Unusable.number(); 2]);
/// # Ok::<(), Refusal>(())
/// ```
#[expect(clippy::too_many_arguments, reason = "they are those of the call")]
pub fn graham_ratios(
    cell: Cell,
    floor: f64,
    centre: &[f64],
    node_polynomials: &[f64],
    points: &mut [f64],
    gases: Gases<'_>,
    values: &mut [f64],
    factors: &mut [f64],
    answers: &mut [u8],
    ratios: &mut [f64],
) -> Result<(), Refusal> {
    told(sys::graham_ratios(
        cell,
        floor,
        centre,
        node_polynomials,
        points,
        gases,
        values,
        factors,
        answers,
        ratios,
    ))
}
