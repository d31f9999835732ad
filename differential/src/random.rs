// A small random generator (SplitMix64), the same on every machine, and the kinds of numbers that the families draw from it.

pub struct Random(u64);

/// Numbers at which arithmetic turns: zeros, ends, the neighbours of 1, and what is no number.
pub const TURNS: [f64; 18] = [
    0.0,
    -0.0,
    5e-324,
    -5e-324,
    f64::MIN_POSITIVE,
    -f64::MIN_POSITIVE,
    f64::EPSILON,
    1.0 - f64::EPSILON / 2.0,
    1.0,
    1.0 + f64::EPSILON,
    -1.0,
    0.5,
    2.0,
    f64::MAX,
    -f64::MAX,
    f64::INFINITY,
    f64::NEG_INFINITY,
    f64::NAN,
];

/// What is not finite.
pub const NOT_FINITE: [f64; 3] = [f64::NAN, f64::INFINITY, f64::NEG_INFINITY];

/// x moved by so many units in the last place, up or down, through zero too; x is finite.
pub fn moved(x: f64, units: i64) -> f64 {
    let magnitude = (x.to_bits() & !(1 << 63)) as i64;
    let line = (if x.is_sign_negative() { -magnitude } else { magnitude }) + units;
    let sign = if line < 0 { 1 << 63 } else { 0 };
    f64::from_bits(line.unsigned_abs() | sign)
}

/// x, and one unit on either side.
pub fn around(x: f64) -> [f64; 3] {
    [moved(x, -1), x, moved(x, 1)]
}

impl Random {
    pub fn new(seed: u64) -> Self {
        Self(seed)
    }

    pub fn bits(&mut self) -> u64 {
        self.0 = self.0.wrapping_add(0x9e37_79b9_7f4a_7c15);
        let mut z = self.0;
        z = (z ^ (z >> 30)).wrapping_mul(0xbf58_476d_1ce4_e5b9);
        z = (z ^ (z >> 27)).wrapping_mul(0x94d0_49bb_1331_11eb);
        z ^ (z >> 31)
    }

    /// 0 to n - 1.
    pub fn below(&mut self, n: u64) -> u64 {
        ((u128::from(self.bits()) * u128::from(n)) >> 64) as u64
    }

    pub fn once_in(&mut self, n: u64) -> bool {
        self.below(n) == 0
    }

    pub fn pick<T: Copy>(&mut self, from: &[T]) -> T {
        from[self.below(from.len() as u64) as usize]
    }

    /// low to high, both among them.
    pub fn whole(&mut self, low: u32, high: u32) -> u32 {
        low + self.below(u64::from(high - low) + 1) as u32
    }

    /// low to high, small ones as often as large ones.
    pub fn log_whole(&mut self, low: u32, high: u32) -> u32 {
        (self.log_between(f64::from(low), f64::from(high) + 0.999) as u32).clamp(low, high)
    }

    /// Evenly from low to high.
    pub fn between(&mut self, low: f64, high: f64) -> f64 {
        let part = (self.bits() >> 11) as f64 / (1u64 << 53) as f64;
        (low + part * (high - low)).clamp(low, high)
    }

    /// Every float from low to high alike, so that each power of two has its share; 0 < low <= high.
    pub fn log_between(&mut self, low: f64, high: f64) -> f64 {
        let (first, last) = (low.to_bits(), high.to_bits());
        f64::from_bits(first + self.below(last - first + 1))
    }

    /// As `log_between`, with either sign.
    pub fn signed_log_between(&mut self, low: f64, high: f64) -> f64 {
        let size = self.log_between(low, high);
        if self.once_in(2) {
            -size
        } else {
            size
        }
    }

    /// Any bit pattern, one in eight a turn.
    pub fn any(&mut self) -> f64 {
        if self.once_in(8) {
            self.pick(&TURNS)
        } else {
            f64::from_bits(self.bits())
        }
    }

    /// Any bit pattern of a finite number.
    pub fn finite(&mut self) -> f64 {
        loop {
            let x = self.any();
            if x.is_finite() {
                return x;
            }
        }
    }

    /// Any finite number from 0 on, -0 among them.
    pub fn amount(&mut self) -> f64 {
        loop {
            let x = self.finite();
            if x >= 0.0 {
                return x;
            }
        }
    }

    /// A number that is no amount of money lent: below zero, or not finite.
    pub fn no_amount(&mut self) -> f64 {
        self.pick(&[-0.01, -5e-324, -f64::MAX, f64::NAN, f64::INFINITY, f64::NEG_INFINITY])
    }
}
