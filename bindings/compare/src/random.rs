//! Seeded numbers (SplitMix64), the same on every machine.

/// A stream of numbers.
#[derive(Clone)]
pub struct Random(u64);

impl Random {
    /// The stream of a seed and a name, so that each part of a run has its own.
    pub fn of(seed: u64, name: &str) -> Random {
        let named = name
            .bytes()
            .fold(seed, |h, b| (h ^ b as u64).wrapping_mul(0x100_0000_01B3));
        Random(named)
    }

    /// The next 64 bits.
    pub fn next(&mut self) -> u64 {
        self.0 = self.0.wrapping_add(0x9E37_79B9_7F4A_7C15);
        let z = (self.0 ^ (self.0 >> 30)).wrapping_mul(0xBF58_476D_1CE4_E5B9);
        let z = (z ^ (z >> 27)).wrapping_mul(0x94D0_49BB_1331_11EB);
        z ^ (z >> 31)
    }

    /// A number from 0 to n - 1.
    pub fn below(&mut self, n: u64) -> u64 {
        ((self.next() as u128 * n as u128) >> 64) as u64
    }

    /// A number from `least` to `most`.
    pub fn between(&mut self, least: i64, most: i64) -> i64 {
        least + self.below((most - least + 1) as u64) as i64
    }

    /// One of some values.
    pub fn pick<T: Copy>(&mut self, values: &[T]) -> T {
        values[self.below(values.len() as u64) as usize]
    }

    /// One of two places.
    pub fn pick_mut<'a, T>(&mut self, first: &'a mut T, second: &'a mut T) -> &'a mut T {
        if self.one_in(2) {
            first
        } else {
            second
        }
    }

    /// One chance in n.
    pub fn one_in(&mut self, n: u64) -> bool {
        self.below(n) == 0
    }

    /// A number in 0 to 1, below 1.
    pub fn unit(&mut self) -> f64 {
        (self.next() >> 11) as f64 / (1u64 << 53) as f64
    }

    /// A number in `least` to `most`.
    pub fn real(&mut self, least: f64, most: f64) -> f64 {
        least + (most - least) * self.unit()
    }

    /// 1 or -1.
    pub fn sign(&mut self) -> f32 {
        if self.one_in(2) {
            1.0
        } else {
            -1.0
        }
    }
}

/// The f32 that stands so many places further from zero (or nearer to it) in the row of all f32.
pub fn ulps(value: f32, places: i64) -> f32 {
    let magnitude = (value.to_bits() & 0x7FFF_FFFF) as i64 + places;
    let sign = value.to_bits() & 0x8000_0000;
    f32::from_bits(sign | magnitude.clamp(0, 0x7F7F_FFFF) as u32)
}
