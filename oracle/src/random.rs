//! A generator of floats from a seed, so that every run with that seed asks the same.

/// Whole numbers so small that few sums of their products round, and none of a few dozen.
pub const SMALL: [f64; 7] = [-3.0, -2.0, -1.0, 0.0, 1.0, 2.0, 3.0];

/// The generator splitmix64: a counter whose values are mixed.
#[derive(Clone)]
pub struct Random {
    state: u64,
}

impl Random {
    pub fn new(seed: u64) -> Self {
        Self { state: seed }
    }

    fn next(&mut self) -> u64 {
        self.state = self.state.wrapping_add(0x9e37_79b9_7f4a_7c15);
        let first = (self.state ^ (self.state >> 30)).wrapping_mul(0xbf58_476d_1ce4_e5b9);
        let second = (first ^ (first >> 27)).wrapping_mul(0x94d0_49bb_1331_11eb);
        second ^ (second >> 31)
    }

    /// A generator of its own: how much is drawn from either changes nothing for the other.
    pub fn branch(&mut self) -> Self {
        Self::new(self.next())
    }

    /// A number below `bound`, which must not be 0.
    pub fn below(&mut self, bound: usize) -> usize {
        (self.next() % bound as u64) as usize
    }

    /// One item of a list, which must not be empty.
    pub fn one_of<T: Copy>(&mut self, list: &[T]) -> T {
        list[self.below(list.len())]
    }

    /// A float from -1 to 1, a multiple of 2^-52.
    fn unit(&mut self) -> f64 {
        let steps = self.next() >> 11;
        steps as f64 / (1u64 << 52) as f64 - 1.0
    }

    /// A float whose exponent lies up to `reach` from that of 1, of either sign.
    fn spread(&mut self, reach: u64) -> f64 {
        let exponent = 1023 - reach + self.next() % (2 * reach + 1);
        f64::from_bits((self.next() & 0x800f_ffff_ffff_ffff) | (exponent << 52))
    }

    /// Floats from -1 to 1.
    pub fn units(&mut self, count: usize) -> Vec<f64> {
        (0..count).map(|_| self.unit()).collect()
    }

    /// Floats whose exponents lie up to `reach` from that of 1.
    pub fn spreads(&mut self, count: usize, reach: u64) -> Vec<f64> {
        (0..count).map(|_| self.spread(reach)).collect()
    }

    /// Floats picked from a list.
    pub fn picks(&mut self, count: usize, list: &[f64]) -> Vec<f64> {
        (0..count).map(|_| self.one_of(list)).collect()
    }

    /// Floats whose bits, where `mask` has a 1, are drawn; the others are 0.
    pub fn masked_bits(&mut self, count: usize, mask: u64) -> Vec<f64> {
        let mut float = || f64::from_bits(self.next() & mask);
        (0..count).map(|_| float()).collect()
    }
}
