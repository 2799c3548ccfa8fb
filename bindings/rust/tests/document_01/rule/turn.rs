//! Turning a block: vectors, references, cases and tables, by sorting and searching.

use super::{bad_dimension, bad_length, bad_order, indices, node, nodes_of_block, refusal};

/// All lists of so many numbers from a range, the first number slowest.
fn all_lists(count: usize, range: std::ops::RangeInclusive<i32>) -> Vec<Vec<i32>> {
    let mut lists = vec![vec![]];
    for _ in 0..count {
        let longer = |list: &Vec<i32>| {
            let list = list.clone();
            range
                .clone()
                .map(move |last| [list.clone(), vec![last]].concat())
        };
        lists = lists.iter().flat_map(longer).collect();
    }
    lists
}

/// All vectors: entries -3 to 3.
pub fn vectors(dimension: usize) -> Vec<Vec<i32>> {
    all_lists(dimension, -3..=3)
}

/// The references: entries 0 to 3, not rising, the first at least 2.
pub fn references(dimension: usize) -> Vec<Vec<i32>> {
    let mut lists = all_lists(dimension, 0..=3);
    lists.retain(|list| list[0] >= 2 && list.is_sorted_by(|before, after| before >= after));
    lists
}

/// The orders of the axes, lexicographically.
pub fn orders(dimension: usize) -> Vec<Vec<usize>> {
    let lists = all_lists(dimension, 0..=dimension as i32 - 1);
    let each_once = |list: &Vec<i32>| (0..dimension as i32).all(|axis| list.contains(&axis));
    let axes = |list: Vec<i32>| list.into_iter().map(|axis| axis as usize).collect();
    lists.into_iter().filter(each_once).map(axes).collect()
}

/// The axes by falling size, ties by axis number.
pub fn axis_order(vector: &[i32]) -> Vec<usize> {
    let mut axes: Vec<usize> = (0..vector.len()).collect();
    axes.sort_by_key(|&axis| (-vector[axis].abs(), axis));
    axes
}

/// The sizes of the entries, the largest first.
pub fn sorted_sizes(vector: &[i32]) -> Vec<i32> {
    let sizes = axis_order(vector)
        .into_iter()
        .map(|axis| vector[axis].abs());
    sizes.collect()
}

/// Axis 0 most significant, 0 for a negative entry, 1 otherwise.
fn sign_case(vector: &[i32]) -> usize {
    vector
        .iter()
        .fold(0, |case, &entry| 2 * case + usize::from(entry >= 0))
}

fn place_of<T: PartialEq>(list: &[T], wanted: &T) -> Option<usize> {
    list.iter().position(|item| item == wanted)
}

/// Index, case, reference number and whether the vector is near.
pub fn look_up(dimension: usize, vector: [i32; 3]) -> Result<(usize, usize, usize, bool), u8> {
    let (own, past) = vector.split_at(dimension.min(3));
    refusal(&[
        (6, past.iter().any(|&entry| entry != 0)),
        (4, own.iter().any(|entry| !(-3..=3).contains(entry))),
        bad_dimension(dimension),
    ])?;
    let own = own.to_vec();
    let near = own.iter().all(|entry| (-1..=1).contains(entry));
    let index = place_of(&vectors(dimension), &own).expect("every vector is listed");
    let order = place_of(&orders(dimension), &axis_order(&own)).expect("every order is listed");
    let reference = place_of(&references(dimension), &sorted_sizes(&own));
    assert_eq!(
        near,
        reference.is_none(),
        "a vector with no reference is near"
    );
    let case = sign_case(&own) * orders(dimension).len() + order;
    Ok((index, case, reference.unwrap_or(0), near))
}

fn most_references(dimension: usize) -> usize {
    [0, 2, 7, 16][dimension.min(3)]
}

/// Whether no reference vector has this number.
pub fn bad_reference(dimension: usize, number: usize) -> (u8, bool) {
    (5, number >= most_references(dimension))
}

pub fn reference_vector(dimension: usize, number: usize) -> Result<[i32; 3], u8> {
    refusal(&[bad_reference(dimension, number), bad_dimension(dimension)])?;
    let mut vector = [0; 3];
    vector[..dimension].copy_from_slice(&references(dimension)[number]);
    Ok(vector)
}

/// The axis order and the sign case that a combined case stands for.
fn parts(dimension: usize, case: usize) -> (Vec<usize>, usize) {
    let orders = orders(dimension);
    (orders[case % orders.len()].clone(), case / orders.len())
}

/// The node of the original block that a node of the reference block goes to: axis m of the
/// reference goes to the m-th axis of the order, and there the index is reversed where the sign is
/// negative.
fn turned(order: usize, axes: &[usize], signs: usize, from: usize) -> usize {
    let dimension = axes.len();
    let mut to = vec![0; dimension];
    for (m, index) in indices(dimension, order, from).into_iter().enumerate() {
        let axis = axes[m];
        let is_negative = (signs >> (dimension - 1 - axis)) & 1 == 0;
        to[axis] = if is_negative {
            order - 1 - index
        } else {
            index
        };
    }
    node(order, &to)
}

/// Where one node goes under the vector's case, and which node comes to its place, which is searched
/// for.
pub fn follow_node(
    dimension: usize,
    order: usize,
    vector: [i32; 3],
    node: usize,
) -> Result<(usize, usize), u8> {
    let (own, past) = vector.split_at(dimension.min(3));
    let nodes = nodes_of_block(dimension, order);
    refusal(&[
        (6, past.iter().any(|&entry| entry != 0)),
        (5, node >= nodes),
        (4, own.iter().any(|entry| !(-3..=3).contains(entry))),
        bad_order(order),
        bad_dimension(dimension),
    ])?;
    let (_, case, _, _) = look_up(dimension, vector)?;
    let (axes, signs) = parts(dimension, case);
    let image = |from: usize| turned(order, &axes, signs, from);
    let origin = (0..nodes).find(|&from| image(from) == node);
    Ok((image(node), origin.expect("a table has every node")))
}

/// The combined table of a case and its inverse, which is argsort of it.
pub fn tables(
    dimension: usize,
    order: usize,
    case: usize,
    lent: &[u16],
) -> Result<[Vec<u16>; 2], u8> {
    let nodes = nodes_of_block(dimension, order);
    refusal(&[
        bad_length(lent, &[nodes]),
        (5, case >= [0, 2, 8, 48][dimension.min(3)]),
        bad_order(order),
        bad_dimension(dimension),
    ])?;
    let (axes, signs) = parts(dimension, case);
    let turned = |from: usize| turned(order, &axes, signs, from) as u16;
    let table: Vec<u16> = (0..nodes).map(turned).collect();
    let mut inverse: Vec<u16> = (0..nodes as u16).collect();
    inverse.sort_by_key(|&from| table[usize::from(from)]);
    Ok([table, inverse])
}
