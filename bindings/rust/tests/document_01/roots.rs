//! The square root, held to the processor's and to what a root is. The tests ask for more than a
//! million roots together.

use bbfmm::square_root;

use crate::draw::{Draw, SPECIAL};
use crate::held::same_floats;
use crate::rule::roots::is_root;

/// Holds the root of each float to the rule, and tells how many there were.
fn roots_are_ruled(kind: &str, inputs: impl Iterator<Item = f64>) {
    let mut asked = 0;
    for x in inputs {
        let root = square_root(x);
        let bits = x.to_bits();
        assert!(
            same_floats(&[root], &[x.sqrt()]),
            "the root of {x:e}, {bits:#x}, is not {root:e}, as the processor's tells"
        );
        assert!(
            is_root(x, root),
            "the root of {x:e}, {bits:#x}, is not {root:e}, as squares tell"
        );
        asked += 1;
    }
    println!("square_root, {kind}: {asked}");
    assert!(asked > 0, "{kind}");
}

/// A float and its two neighbours.
fn with_neighbours(x: f64) -> [f64; 3] {
    [x.next_down(), x, x.next_up()]
}

/// A float times a power of four. In between it is a normal number, so that nothing rounds.
fn times_power_of_four(x: f64, power: i32) -> f64 {
    x * 2f64.powi(power) * 2f64.powi(power)
}

#[test]
fn special_floats_have_their_roots() {
    let signed = SPECIAL.iter().flat_map(|&x| [x, -x]);
    roots_are_ruled("special floats", signed.flat_map(with_neighbours));
    for (x, root) in [
        (0.0, 0.0),
        (-0.0, -0.0),
        (f64::INFINITY, f64::INFINITY),
        (f64::NEG_INFINITY, f64::NAN),
        (f64::NAN, f64::NAN),
        (-f64::NAN, f64::NAN),
        (-5e-324, f64::NAN),
        (-1.0, f64::NAN),
        (f64::MIN, f64::NAN),
        (1.0, 1.0),
        (2.25, 1.5),
        (2f64.powi(-1_074), 2f64.powi(-537)),
        (2f64.powi(1_022), 2f64.powi(511)),
    ] {
        assert!(same_floats(&[square_root(x)], &[root]), "the root of {x:e}");
    }
}

#[test]
fn any_bits_have_their_roots() {
    let mut draw = Draw::new(19);
    let any = (0..400_000).map(|_| f64::from_bits(draw.bits()));
    roots_are_ruled("any bits", any);
}

/// So many of each exponent.
#[test]
fn normal_floats_have_their_roots() {
    let mut draw = Draw::new(20);
    let exponents = (1..2_047).flat_map(|exponent| [exponent; 150]);
    let normal =
        exponents.map(|exponent: u64| f64::from_bits((exponent << 52) | (draw.bits() >> 12)));
    roots_are_ruled("normal floats", normal);
}

/// So many of at most each number of bits, and now and then one below 0.
#[test]
fn subnormals_have_their_roots() {
    let mut draw = Draw::new(21);
    let zeros = (12..64).flat_map(|zeros| [zeros; 4_000]);
    let subnormal = zeros.map(|zeros| {
        let size = f64::from_bits(draw.bits() >> zeros);
        if draw.one_in(50) { -size } else { size }
    });
    roots_are_ruled("subnormals", subnormal);
}

/// Squares that are exact, at many sizes.
#[test]
fn squares_and_their_neighbours_have_their_roots() {
    let mut draw = Draw::new(22);
    let squares = (0..60_000).map(|_| {
        let size = draw.below(27);
        let whole = draw.below(1 << size) as f64 + 1.0;
        times_power_of_four(whole * whole, draw.below(980) as i32 - 500)
    });
    roots_are_ruled("squares", squares.flat_map(with_neighbours));
}

/// The floats about the square of the middle of two floats: their roots are the hardest to round.
#[test]
fn squares_of_middles_and_their_neighbours_have_their_roots() {
    let mut draw = Draw::new(23);
    let squares = (0..60_000).map(|_| {
        let middle = u128::from((draw.bits() >> 10) | (1 << 53) | 1);
        times_power_of_four((middle * middle) as f64, draw.below(998) as i32 - 553)
    });
    roots_are_ruled("squares of middles", squares.flat_map(with_neighbours));
}

/// All powers of two, and the floats up to four steps beside each.
fn about_powers_of_two() -> impl Iterator<Item = f64> {
    let subnormal = (0..52).map(|place| 1u64 << place);
    let normal = (1..2_047).map(|exponent: u64| exponent << 52);
    let beside =
        |bits: u64| (0..9).map(move |step| f64::from_bits((bits + step).saturating_sub(4)));
    subnormal.chain(normal).flat_map(beside)
}

#[test]
fn powers_of_two_and_their_neighbours_have_their_roots() {
    roots_are_ruled("powers of two", about_powers_of_two());
}

/// The rule itself: of a float above 0 it takes the root and neither of the root's neighbours.
#[test]
fn a_root_is_told_from_its_neighbours() {
    let mut draw = Draw::new(24);
    let any = (0..20_000).map(|_| f64::from_bits(draw.bits()));
    for x in any.chain(about_powers_of_two()) {
        if x.is_finite() && x > 0.0 {
            let taken = with_neighbours(x.sqrt()).map(|root| is_root(x, root));
            assert_eq!(taken, [false, true, false], "{x:e}");
        }
    }
}
