//! Numbers for made cases: a generator that gives the same numbers everywhere,
//! and the ways of picking a double.

/// splitmix64.
pub struct Random(u64);

impl Random {
    pub fn new(seed: u64) -> Random {
        Random(seed)
    }

    pub fn next(&mut self) -> u64 {
        self.0 = self.0.wrapping_add(0x9e37_79b9_7f4a_7c15);
        let mut z = self.0;
        z = (z ^ (z >> 30)).wrapping_mul(0xbf58_476d_1ce4_e5b9);
        z = (z ^ (z >> 27)).wrapping_mul(0x94d0_49bb_1331_11eb);
        z ^ (z >> 31)
    }

    pub fn below(&mut self, bound: usize) -> usize {
        (self.next() % bound as u64) as usize
    }

    /// True in `share` of a hundred.
    pub fn chance(&mut self, share: usize) -> bool {
        self.below(100) < share
    }

    pub fn pick<T: Copy>(&mut self, choices: &[T]) -> T {
        choices[self.below(choices.len())]
    }

    pub fn signed(&mut self, x: f64) -> f64 {
        if self.chance(50) {
            -x
        } else {
            x
        }
    }

    /// Any sign, an exponent between these two, any digits.
    pub fn scaled(&mut self, lowest: i32, highest: i32) -> f64 {
        let digits = self.next() >> 12;
        let exponent = (1023 + lowest) as u64 + self.below((highest - lowest + 1) as usize) as u64;
        let size = f64::from_bits(exponent << 52 | digits);
        self.signed(size)
    }

    /// Any sign, exponent -8 to 8, any digits.
    pub fn moderate(&mut self) -> f64 {
        self.scaled(-8, 8)
    }

    /// Any bit pattern.
    pub fn any_bits(&mut self) -> f64 {
        f64::from_bits(self.next())
    }

    /// Quarters between -4 and 4: sums and products of these are exact.
    pub fn quarter(&mut self) -> f64 {
        (self.below(33) as f64 - 16.0) / 4.0
    }

    pub fn special(&mut self) -> f64 {
        let size = self.pick(&SPECIALS);
        self.signed(size)
    }

    /// The number itself or a neighbour, one ulp up or down.
    pub fn near(&mut self, x: f64) -> f64 {
        match self.below(3) {
            0 => x,
            1 => x.next_up(),
            _ => x.next_down(),
        }
    }

    /// At a border that counts for both signs, or one ulp beside it.
    pub fn at_border(&mut self, size: f64) -> f64 {
        let border = self.signed(size);
        self.near(border)
    }

    /// Between 0 and 1, both possible.
    pub fn fraction(&mut self) -> f64 {
        self.below(1025) as f64 / 1024.0
    }

    /// A mixture of everything that is not special.
    pub fn ordinary(&mut self) -> f64 {
        match self.below(10) {
            0..=4 => self.moderate(),
            5..=7 => self.any_bits(),
            _ => self.quarter(),
        }
    }
}

/// Both signs of these are the special numbers.
pub const SPECIALS: [f64; 12] = [
    0.0,
    f64::INFINITY,
    f64::NAN,
    5e-324,                                // smallest subnormal
    f64::from_bits(0x000f_ffff_ffff_ffff), // largest subnormal
    f64::MIN_POSITIVE,                     // smallest normal
    f64::MAX,                              // largest finite
    1.0,
    f64::from_bits(0x3ff0_0000_0000_0001), // one ulp above 1
    f64::from_bits(0x3fef_ffff_ffff_ffff), // one ulp below 1
    0.5,
    2.0,
];
