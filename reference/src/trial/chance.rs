//! The generator (splitmix64), and floats of every sort.

/// Floats at the edges of the format and of the document's rules.
pub const EDGES: [u64; 22] = [
    0x0000000000000000, 0x8000000000000000, 0x0000000000000001, 0x8000000000000001,
    0x000fffffffffffff, 0x0010000000000000, 0x0010000000000001, 0x7fefffffffffffff,
    0xffefffffffffffff, 0x3ff0000000000000, 0xbff0000000000000, 0x3fefffffffffffff,
    0x3ff0000000000001, 0x4000000000000000, 0x4010000000000000, 0x5fefffffffffffff,
    0x5ff0000000000000, 0x2000000000000000, 0x1e60000000000000, 0x4340000000000000,
    0x433fffffffffffff, 0x8010000000000000,
];

/// Infinities and NaN patterns.
pub const NOT_FINITE: [u64; 10] = [
    0x7ff0000000000000, 0xfff0000000000000, 0x7ff8000000000000, 0xfff8000000000000,
    0x7ff0000000000001, 0xfff0000000000001, 0x7fffffffffffffff, 0xffffffffffffffff,
    0x7ff4000000000000, 0x7ff8000000000001,
];

#[derive(Clone, Debug)]
pub struct Chance {
    state: u64,
}

impl Chance {
    pub fn new(seed: u64) -> Chance {
        Chance { state: seed }
    }

    pub fn next(&mut self) -> u64 {
        self.state = self.state.wrapping_add(0x9e3779b97f4a7c15);
        let mut z = self.state;
        z = (z ^ (z >> 30)).wrapping_mul(0xbf58476d1ce4e5b9);
        z = (z ^ (z >> 27)).wrapping_mul(0x94d049bb133111eb);
        z ^ (z >> 31)
    }

    /// Below a bound; 0 for the bound 0.
    pub fn below(&mut self, bound: u64) -> u64 {
        ((u128::from(self.next()) * u128::from(bound)) >> 64) as u64
    }

    /// From low to high, both included.
    pub fn between(&mut self, low: u64, high: u64) -> u64 {
        low + self.below(high.saturating_sub(low).saturating_add(1))
    }

    pub fn one_in(&mut self, n: u64) -> bool {
        self.below(n) == 0
    }

    /// An element of a list that is not empty.
    pub fn pick<T: Clone>(&mut self, list: &[T]) -> T {
        list[self.below(list.len() as u64) as usize].clone()
    }

    /// Numbers of up to `bits` bits, each length equally often.
    pub fn any_length(&mut self, bits: u64) -> u64 {
        let length = self.between(1, bits);
        self.next() >> (64 - length)
    }

    pub fn any_bits(&mut self) -> f64 {
        f64::from_bits(self.next())
    }

    pub fn not_finite(&mut self) -> f64 {
        f64::from_bits(self.pick(&NOT_FINITE))
    }

    pub fn edge(&mut self) -> f64 {
        f64::from_bits(self.pick(&EDGES))
    }

    /// Any finite float.
    pub fn finite(&mut self) -> f64 {
        let x = self.any_bits();
        if x.is_finite() {
            x
        } else {
            self.edge()
        }
    }

    /// Between 2^low and 2^high in size, either sign.
    pub fn sized(&mut self, low: i64, high: i64) -> f64 {
        let e = (1023 + low) as u64 + self.below((high - low) as u64);
        f64::from_bits((self.next() & 0x800f_ffff_ffff_ffff) | (e.clamp(1, 2046) << 52))
    }

    /// From -reach to reach.
    pub fn within(&mut self, reach: f64) -> f64 {
        let unit = (self.next() >> 11) as f64 / 9007199254740992.0;
        (2.0 * unit - 1.0) * reach
    }

    pub fn shuffle<T>(&mut self, list: &mut [T]) {
        for i in (1..list.len()).rev() {
            let j = self.below(i as u64 + 1) as usize;
            list.swap(i, j);
        }
    }
}
