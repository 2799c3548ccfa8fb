//! What a square root is, by comparing squares of whole numbers. No root is taken.

/// A finite float above 0 as a whole number below 2^53 and the power of two that it is times.
fn parts(x: f64) -> (u128, i32) {
    let fraction = u128::from(x.to_bits() & ((1 << 52) - 1));
    match (x.to_bits() >> 52) as i32 {
        0 => (fraction, -1_074),
        exponent => (fraction | (1 << 52), exponent - 1_075),
    }
}

/// A whole number times a power of two, where that is a whole number that fits.
fn times_power(whole: u128, power: i32) -> Option<u128> {
    let fits = (0..=whole.leading_zeros() as i32).contains(&power);
    fits.then(|| whole << power)
}

/// Whether a float is the nearest to the root of a finite one above 0: the root lies between the
/// middles of the float and its two neighbours. It is none of them: the square of a middle has too
/// many bits for a float. All is counted in quarters of the float's last place, since the neighbour
/// below a power of two is at half a step.
fn is_nearest(x: f64, root: f64) -> bool {
    if !(root.is_normal() && root > 0.0) {
        return false;
    }
    let (whole, power) = parts(root);
    let below = if whole == 1 << 52 { 1 } else { 2 };
    let (lower, upper) = (4 * whole - below, 4 * whole + 2);
    let (given, given_power) = parts(x);
    match times_power(given, given_power - 2 * power + 4) {
        Some(given) => lower * lower < given && given < upper * upper,
        None => false,
    }
}

/// Whether this is the root of any float. Zeros and +infinity are their own; a NaN and what is
/// below 0 have NaN.
pub fn is_root(x: f64, root: f64) -> bool {
    if x.is_nan() || x < 0.0 {
        root.is_nan()
    } else if x == 0.0 || x.is_infinite() {
        root.to_bits() == x.to_bits()
    } else {
        is_nearest(x, root)
    }
}
