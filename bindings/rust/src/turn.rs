//! Turning a block: looking up a vector, reference vectors, and the two tables.

use crate::refusal::{Refusal, told};
use crate::sys;

/// What is known of a vector between two blocks.
#[derive(Clone, Copy, Debug, PartialEq, Eq, Hash)]
pub struct Entry {
    /// Its place among all vectors of its dimension, the first axis slowest.
    pub index: usize,
    /// Its case: which of the 2, 8 or 48 ways its block is turned.
    pub case: usize,
    /// The number of its reference vector. A near vector has none, and 0 here.
    pub reference: usize,
    /// Whether it is near: every entry is -1, 0 or 1.
    pub near: bool,
}

/// Looks up the vector between two blocks. Its entries past the dimension must be 0.
///
/// # Errors
///
/// [`Refusal::NoDimension`], [`Refusal::NoEntry`] and [`Refusal::NotZero`].
///
/// # Examples
///
/// ```
/// use bbfmm::{Entry, Refusal, look_up};
///
/// let found = look_up(3, [0, -2, 1])?;
/// assert_eq!(found, Entry { index: 158, case: 33, reference: 1, near: false });
/// assert!(look_up(2, [1, -1, 0])?.near);
/// assert_eq!(look_up(2, [0, -2, 1]), Err(Refusal::NotZero));
/// # Ok::<(), Refusal>(())
/// ```
pub fn look_up(dimension: usize, vector: [i32; 3]) -> Result<Entry, Refusal> {
    let mut answer = [0; 4];
    told(sys::look_up(dimension, vector, &mut answer))?;
    let [index, case, reference, near] = answer;
    Ok(Entry {
        index,
        case,
        reference,
        near: near == 1,
    })
}

/// Where one node goes, and which node comes to its place.
#[derive(Clone, Copy, Debug, PartialEq, Eq, Hash)]
pub struct Moves {
    /// The node of the turned block that the node goes to.
    pub image: usize,
    /// The node of the reference block that comes to the node's place.
    pub origin: usize,
}

/// Follows one node, below N, under the table of the vector's case, near or far: the entries at the
/// node of [`combined_permutation`] and of [`inverse_permutation`]. No table is filled.
///
/// # Errors
///
/// [`Refusal::NoDimension`], [`Refusal::NoOrder`], [`Refusal::NoEntry`], [`Refusal::NoCase`] for a
/// node that is not below N, and [`Refusal::NotZero`].
///
/// # Examples
///
/// ```
/// use bbfmm::{Moves, Refusal, follow_node};
///
/// assert_eq!(follow_node(2, 2, [0, -2, 0], 0)?, Moves { image: 1, origin: 2 });
/// assert_eq!(follow_node(2, 2, [0, -2, 0], 4), Err(Refusal::NoCase));
/// # Ok::<(), Refusal>(())
/// ```
pub fn follow_node(
    dimension: usize,
    order: usize,
    vector: [i32; 3],
    node: usize,
) -> Result<Moves, Refusal> {
    let mut answer = [0; 2];
    told(sys::follow_node(dimension, order, vector, node, &mut answer))?;
    let [image, origin] = answer;
    Ok(Moves { image, origin })
}

/// The reference vector with this number, which is below 2, 7, 16 for dimension 1, 2, 3. Entries
/// past the dimension are 0.
///
/// # Errors
///
/// [`Refusal::NoDimension`] and [`Refusal::NoCase`].
///
/// # Examples
///
/// ```
/// use bbfmm::{Refusal, reference_vector};
///
/// assert_eq!(reference_vector(3, 4)?, [2, 2, 1]);
/// assert_eq!(reference_vector(3, 16), Err(Refusal::NoCase));
/// # Ok::<(), Refusal>(())
/// ```
pub fn reference_vector(dimension: usize, number: usize) -> Result<[i32; 3], Refusal> {
    let mut vector = [0; 3];
    told(sys::reference_vector(dimension, number, &mut vector))?;
    Ok(vector)
}

/// The table of a case, which is below 2, 8, 48 for dimension 1, 2, 3.
///
/// - `table`: N entries. Entry n becomes the node of the turned block that node n of the reference
///   block goes to.
///
/// # Errors
///
/// [`Refusal::NoDimension`], [`Refusal::NoOrder`], [`Refusal::NoCase`] and
/// [`Refusal::WrongLength`].
///
/// # Examples
///
/// ```
/// use bbfmm::{Refusal, combined_permutation};
///
/// let mut table = [0; 4];
/// combined_permutation(2, 2, 3, &mut table)?;
/// assert_eq!(table, [2, 0, 3, 1]);
/// assert_eq!(combined_permutation(2, 2, 3, &mut table[1..]), Err(Refusal::WrongLength));
/// # Ok::<(), Refusal>(())
/// ```
pub fn combined_permutation(
    dimension: usize,
    order: usize,
    case: usize,
    table: &mut [u16],
) -> Result<(), Refusal> {
    told(sys::combined_permutation(dimension, order, case, table))
}

/// The inverse of the table that [`combined_permutation`] gives for the same case.
///
/// - `table`: N entries. Entry n becomes the node of the reference block that goes to node n of the
///   turned block.
///
/// # Errors
///
/// [`Refusal::NoDimension`], [`Refusal::NoOrder`], [`Refusal::NoCase`] and
/// [`Refusal::WrongLength`].
///
/// # Examples
///
/// ```
/// use bbfmm::{Refusal, inverse_permutation};
///
/// let mut table = [0; 4];
/// inverse_permutation(2, 2, 3, &mut table)?;
/// assert_eq!(table, [1, 3, 0, 2]);
/// assert_eq!(inverse_permutation(2, 17, 3, &mut table), Err(Refusal::NoOrder));
/// # Ok::<(), Refusal>(())
/// ```
pub fn inverse_permutation(
    dimension: usize,
    order: usize,
    case: usize,
    table: &mut [u16],
) -> Result<(), Refusal> {
    told(sys::inverse_permutation(dimension, order, case, table))
}
