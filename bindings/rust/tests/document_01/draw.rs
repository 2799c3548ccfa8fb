//! Draws cases from a seed, so that every run asks the same: numbers about their limits, and floats
//! of many sorts.

use std::ops::RangeInclusive;

/// Zeros of both signs, subnormals, floats about the least pivot, huge floats, infinities and NaN.
pub const SPECIAL: [f64; 14] = [
    0.0,
    -0.0,
    5e-324,
    -2.2e-308,
    f64::MIN_POSITIVE,
    f64::EPSILON,
    f64::EPSILON / 2.0,
    1e154,
    -1e200,
    f64::MAX,
    f64::MIN,
    f64::INFINITY,
    f64::NEG_INFINITY,
    f64::NAN,
];

/// One in so many numbers lies outside its limits.
const ONE_OUTSIDE: usize = 14;
/// One in so many buffers has another length than it should.
const ONE_UNFIT: usize = 40;

/// The generator splitmix64: a counter whose values are mixed.
pub struct Draw {
    state: u64,
    /// Whether all that is drawn lies in the limits, so that no call refuses it.
    fits: bool,
}

impl Draw {
    /// Draws cases of which most fit, and some are refused.
    pub fn new(seed: u64) -> Self {
        Self {
            state: seed,
            fits: false,
        }
    }

    /// Draws cases that all fit.
    pub fn fitting(seed: u64) -> Self {
        Self {
            state: seed,
            fits: true,
        }
    }

    fn next(&mut self) -> u64 {
        self.state = self.state.wrapping_add(0x9e37_79b9_7f4a_7c15);
        let first = (self.state ^ (self.state >> 30)).wrapping_mul(0xbf58_476d_1ce4_e5b9);
        let second = (first ^ (first >> 27)).wrapping_mul(0x94d0_49bb_1331_11eb);
        second ^ (second >> 31)
    }

    /// Any 64 bits.
    pub fn bits(&mut self) -> u64 {
        self.next()
    }

    /// A number below the bound, which is not 0.
    pub fn below(&mut self, bound: usize) -> usize {
        (self.next() % bound as u64) as usize
    }

    pub fn one_in(&mut self, many: usize) -> bool {
        self.below(many) == 0
    }

    /// Whether to draw something that is refused, one in so many times.
    fn is_fault(&mut self, many: usize) -> bool {
        !self.fits && self.one_in(many)
    }

    pub fn one_of<T: Copy>(&mut self, list: &[T]) -> T {
        list[self.below(list.len())]
    }

    /// A number in its limits, and now and then one outside them.
    pub fn number(&mut self, limits: RangeInclusive<usize>) -> usize {
        let (least, most) = (*limits.start(), *limits.end());
        if self.is_fault(ONE_OUTSIDE) {
            return self.one_of(&[
                least.wrapping_sub(1),
                most + 1,
                most + 2,
                1 << 32,
                usize::MAX,
            ]);
        }
        least + self.below(most - least + 1)
    }

    /// An order up to this one, and now and then any, in its limits or not.
    pub fn order(&mut self, most: usize) -> usize {
        match self.below(10) {
            0 => self.number(1..=16),
            _ => 1 + self.below(most),
        }
    }

    /// How long a buffer is, and now and then another length.
    pub fn length(&mut self, right: usize) -> usize {
        if self.is_fault(ONE_UNFIT) {
            return self.one_of(&[0, right.saturating_sub(1), right + 1]);
        }
        right
    }

    /// Whole numbers from -3 to 3, floats from -1 to 1, floats of many sizes, special floats, or
    /// any bits.
    fn float(&mut self, sort: usize) -> f64 {
        let bits = self.next();
        let unit = (bits >> 11) as f64 / (1u64 << 52) as f64 - 1.0;
        match sort {
            0 => (bits % 7) as f64 - 3.0,
            1..4 => unit,
            4 => unit * 2f64.powi(self.below(80) as i32 - 40),
            5 => self.one_of(&SPECIAL),
            6 => f64::from_bits(bits & 0x800f_ffff_ffff_ffff),
            _ => f64::from_bits(bits),
        }
    }

    /// A float from -1 to 1.
    pub fn unit(&mut self) -> f64 {
        self.float(1)
    }

    /// Floats of one sort, which is drawn too; or of all sorts.
    pub fn floats(&mut self, count: usize) -> Vec<f64> {
        let all = self.one_in(9);
        let one = self.below(8);
        let mut float = || {
            let sort = if all { self.below(8) } else { one };
            self.float(sort)
        };
        (0..count).map(|_| float()).collect()
    }

    /// Finite floats, and now and then some that are not.
    pub fn coordinates(&mut self, count: usize) -> Vec<f64> {
        let any = self.is_fault(ONE_OUTSIDE);
        let finite = |float: f64| if any || float.is_finite() { float } else { 1.5 };
        self.floats(count).into_iter().map(finite).collect()
    }

    /// Where a point lies from the middle of its cell, in halves of the cell's length: from -1 to 1, on
    /// the border or a step of the last bit beside it; and now and then anywhere.
    pub fn offset(&mut self) -> f64 {
        let border = 1.0 + 2f64.powi(-20);
        if self.is_fault(ONE_OUTSIDE * 4) {
            let any = self.coordinates(1)[0];
            return self.one_of(&[border.next_up(), -border.next_up(), any]);
        }
        match self.below(16) {
            0 => self.one_of(&[border, -border, border.next_down(), -0.0, 1.0, -1.0]),
            _ => self.float(1),
        }
    }

    /// Floats for a buffer that is lent, now and then of another length than it should be.
    pub fn lent(&mut self, right: usize) -> Vec<f64> {
        let length = self.length(right);
        self.floats(length)
    }

    /// 16-bit numbers for a list that is lent, now and then of another length.
    pub fn lent_list(&mut self, right: usize) -> Vec<u16> {
        let length = self.length(right);
        (0..length).map(|_| self.next() as u16).collect()
    }

    /// Bytes for a list that is lent, now and then of another length.
    pub fn lent_bytes(&mut self, right: usize) -> Vec<u8> {
        let length = self.length(right);
        (0..length).map(|_| self.next() as u8).collect()
    }

    /// A cell's length: an end of the limits, any between, and now and then any float or one just
    /// outside.
    pub fn cell_length(&mut self) -> f64 {
        let (least, most) = (2f64.powi(-20), 2f64.powi(30));
        if self.is_fault(ONE_OUTSIDE) {
            let any = self.floats(1)[0];
            return self.one_of(&[least.next_down(), most.next_up(), any]);
        }
        match self.below(8) {
            0 => self.one_of(&[least, least.next_up(), most.next_down(), most]),
            _ => (1.0 + self.float(1).abs()) * 2f64.powi(self.below(50) as i32 - 20),
        }
    }

    /// A floor of the deficiency: one that a caller would give, or any that is finite and above 0; and
    /// now and then one that is not.
    pub fn floor(&mut self) -> f64 {
        let any = self.floats(1)[0].abs();
        if self.is_fault(ONE_OUTSIDE) {
            return self.one_of(&[0.0, -0.0, -5e-324, -any, f64::INFINITY, f64::NAN]);
        }
        match self.below(4) {
            0 => self.one_of(&[5e-324, f64::MIN_POSITIVE, f64::MAX]),
            1 if any.is_finite() && any > 0.0 => any,
            _ => self.one_of(&[1e-6, 0.01, 0.1, 0.5, 13.0]),
        }
    }

    /// A tolerance that a caller would give, or any float.
    pub fn epsilon(&mut self) -> f64 {
        match self.below(3) {
            0 => self.floats(1)[0],
            _ => self.one_of(&[0.0, 1e-12, 1e-6, 1e-3, 0.1, 0.5, 0.75, 1.0, 2.0]),
        }
    }
}
