//! Numbers that show that nothing rounds: each result of an operation must be the value of a float.

use std::ops::{Add, Div, Mul, Sub};

/// From here on a whole number may have no float.
const LIMIT: u128 = 1 << 53;

/// The number `whole * 2^exponent`, where `whole` is odd, or 0 with the exponent 0.
#[derive(Clone, Copy, Debug, PartialEq)]
pub struct Exact {
    whole: i128,
    exponent: i32,
}

impl Exact {
    pub const ZERO: Self = Self {
        whole: 0,
        exponent: 0,
    };
    pub const ONE: Self = Self {
        whole: 1,
        exponent: 0,
    };
    pub const TWO: Self = Self {
        whole: 1,
        exponent: 1,
    };

    /// Panics where no float has this value: then the operation that made it rounds.
    fn new(whole: i128, exponent: i32) -> Self {
        if whole == 0 {
            return Self::ZERO;
        }
        let twos = whole.trailing_zeros();
        let exact = Self {
            whole: whole >> twos,
            exponent: exponent + twos as i32,
        };
        assert!(exact.whole.unsigned_abs() < LIMIT, "an operation rounds");
        // So far inside the range of floats that nothing overflows or is subnormal.
        assert!(exact.exponent.abs() < 900, "an operation leaves the range");
        exact
    }

    /// The value of a float, which is neither subnormal nor without a value; a zero has no sign.
    pub fn of(float: f64) -> Self {
        if float == 0.0 {
            return Self::ZERO;
        }
        assert!(float.is_normal(), "a float with no exact number");
        let bits = float.to_bits();
        let size = (bits & 0x000f_ffff_ffff_ffff) | 0x0010_0000_0000_0000;
        let whole = if float < 0.0 { -1 } else { 1 } * i128::from(size);
        Self::new(whole, (bits >> 52 & 0x7ff) as i32 - 1075)
    }

    /// How many units of 2^`unit` this is.
    fn units(self, unit: i32) -> i128 {
        let steps = u32::try_from(self.exponent - unit).expect("a unit that divides the number");
        // An odd number below 2^53, moved by up to 64 places, stays within 128 bits.
        assert!(steps <= 64, "numbers too far apart");
        self.whole << steps
    }

    /// The finest power of two that both are multiples of.
    fn unit(self, other: Self) -> i32 {
        self.exponent.min(other.exponent)
    }

    /// A sum that no order of adding rounds, and no fusing of its products with its additions.
    ///
    /// In the finest unit among the terms, or 1, even their sizes add up to less than 2^53: so every
    /// part of the sum is a whole number of units that has a float.
    pub fn sum(terms: &[Self]) -> Self {
        let unit = terms.iter().fold(0, |unit, term| unit.min(term.exponent));
        let sizes: u128 = terms
            .iter()
            .map(|term| term.units(unit).unsigned_abs())
            .sum();
        assert!(sizes < LIMIT, "an order of adding rounds");
        Self::new(terms.iter().map(|term| term.units(unit)).sum(), unit)
    }
}

impl Add for Exact {
    type Output = Self;

    fn add(self, other: Self) -> Self {
        let unit = self.unit(other);
        Self::new(self.units(unit) + other.units(unit), unit)
    }
}

impl Sub for Exact {
    type Output = Self;

    fn sub(self, other: Self) -> Self {
        let unit = self.unit(other);
        Self::new(self.units(unit) - other.units(unit), unit)
    }
}

impl Mul for Exact {
    type Output = Self;

    fn mul(self, other: Self) -> Self {
        Self::new(self.whole * other.whole, self.exponent + other.exponent)
    }
}

/// Divides by powers of two of either sign only.
impl Div for Exact {
    type Output = Self;

    fn div(self, other: Self) -> Self {
        assert_eq!(other.whole.abs(), 1, "a divisor that is no power of two");
        Self::new(self.whole * other.whole, self.exponent - other.exponent)
    }
}
