//! SplitMix64 (Steele, Lea and Flood, 2014): the same numbers on every machine, so that a seed
//! repeats a run.

pub struct Random(u64);

impl Random {
    pub fn new(seed: u64) -> Random {
        Random(seed)
    }

    pub fn bits(&mut self) -> u64 {
        self.0 = self.0.wrapping_add(0x9e37_79b9_7f4a_7c15);
        let z = (self.0 ^ (self.0 >> 30)).wrapping_mul(0xbf58_476d_1ce4_e5b9);
        let z = (z ^ (z >> 27)).wrapping_mul(0x94d0_49bb_1331_11eb);
        z ^ (z >> 31)
    }

    /// A whole number below `n`. That a remainder favours the low ones is no matter here.
    pub fn below(&mut self, n: u64) -> u64 {
        self.bits() % n
    }

    /// A whole number of any length in bits.
    pub fn whole(&mut self) -> u64 {
        self.bits() >> self.below(64)
    }

    pub fn one_in(&mut self, n: u64) -> bool {
        self.below(n) == 0
    }

    pub fn pick<'a, T>(&mut self, from: &'a [T]) -> &'a T {
        &from[self.below(from.len() as u64) as usize]
    }

    /// From 0 to below 1, in steps of 2^-53.
    pub fn unit(&mut self) -> f64 {
        (self.bits() >> 11) as f64 / (1u64 << 53) as f64
    }

    /// From -1 to below 1.
    pub fn signed_unit(&mut self) -> f64 {
        2.0 * self.unit() - 1.0
    }

    /// Cosine and sine of an angle, without functions that differ between machines.
    pub fn angle(&mut self) -> (f64, f64) {
        let tan_half = self.signed_unit();
        let (part, whole) = (1.0 - tan_half * tan_half, 1.0 + tan_half * tan_half);
        (self.signed(part / whole), 2.0 * tan_half / whole)
    }

    /// `x` or `-x`, a zero's and a NaN's sign too.
    pub fn signed(&mut self, x: f64) -> f64 {
        f64::from_bits(x.to_bits() ^ (self.bits() & (1 << 63)))
    }
}
