//! Nodes by their cosines, polynomials by their recurrence.

use super::{bad_length, bad_order, refusal};

/// cos(pi*(i+0.5)/p) for i from p-1 down to 0. The cosine of another platform may round otherwise
/// in the last places.
pub fn cosines(order: usize) -> Vec<f64> {
    let angle = |i: usize| std::f64::consts::PI * (i as f64 + 0.5) / order as f64;
    (0..order).rev().map(|i| angle(i).cos()).collect()
}

/// T_0 to T_(p-1) at a place.
pub fn polynomials(order: usize, x: f64) -> Vec<f64> {
    let mut t = vec![1.0, x];
    for j in 2..order {
        t.push((2.0 * x) * t[j - 1] - t[j - 2]);
    }
    t.truncate(order);
    t
}

/// T'_0 to T'_(p-1) at a place.
pub fn derivatives(order: usize, x: f64) -> Vec<f64> {
    let t = polynomials(order, x);
    let mut d = vec![0.0, 1.0];
    for j in 2..order {
        d.push(((2.0 * t[j - 1]) + ((2.0 * x) * d[j - 1])) - d[j - 2]);
    }
    d.truncate(order);
    d
}

/// T''_0 to T''_(p-1) at a place.
pub fn second_derivatives(order: usize, x: f64) -> Vec<f64> {
    let d = derivatives(order, x);
    let mut dd = vec![0.0, 0.0];
    for j in 2..order {
        dd.push(((4.0 * d[j - 1]) + ((2.0 * x) * dd[j - 1])) - dd[j - 2]);
    }
    dd.truncate(order);
    dd
}

/// A matrix with a row for each list, column-major.
fn columns(width: usize, rows: &[Vec<f64>]) -> Vec<f64> {
    let column = |j: usize| rows.iter().map(move |row| row[j]);
    (0..width).flat_map(column).collect()
}

/// T, and T' or nothing, at the points.
pub fn evaluate(
    order: usize,
    points: &[f64],
    [tn, dtn]: [&[f64]; 2],
    with_derivatives: bool,
) -> Result<[Vec<f64>; 2], u8> {
    let wanted = usize::from(with_derivatives);
    refusal(&[
        bad_length(tn, &[points.len(), order]),
        bad_length(dtn, &[points.len(), order, wanted]),
        (3, points.len() > 4096),
        bad_order(order),
    ])?;
    let slopes = if with_derivatives {
        at_points(derivatives, order, points)
    } else {
        vec![]
    };
    Ok([at_points(polynomials, order, points), slopes])
}

/// A rule at each point, a row a point.
pub fn at_points(rule: fn(usize, f64) -> Vec<f64>, order: usize, points: &[f64]) -> Vec<f64> {
    let rows: Vec<_> = points.iter().map(|&x| rule(order, x)).collect();
    columns(order, &rows)
}

/// T, T' and T'' at the points.
pub fn evaluate_second(
    order: usize,
    points: &[f64],
    lent: &[Vec<f64>; 3],
) -> Result<[Vec<f64>; 3], u8> {
    let bad = |list: &Vec<f64>| bad_length(list, &[points.len(), order]);
    refusal(&[
        bad(&lent[0]),
        bad(&lent[1]),
        bad(&lent[2]),
        (3, points.len() > 4096),
        bad_order(order),
    ])?;
    Ok([polynomials, derivatives, second_derivatives].map(|rule| at_points(rule, order, points)))
}
