//! A small generator (splitmix64), so that every case is known by its kind, index and seed;
//! and numbers of every size, the odd ones among them.

#[derive(Clone, Debug)]
pub struct Random(u64);

impl Random {
    /// The generator of one case.
    pub fn of_case(seed: u64, kind: u64, index: u64) -> Self {
        let mut random = Self(seed);
        for salt in [kind, index] {
            random.0 = random.next().wrapping_add(salt);
        }
        random
    }

    #[allow(clippy::should_implement_trait)]
    pub fn next(&mut self) -> u64 {
        self.0 = self.0.wrapping_add(0x9E37_79B9_7F4A_7C15);
        let mut z = self.0;
        z = (z ^ (z >> 30)).wrapping_mul(0xBF58_476D_1CE4_E5B9);
        z = (z ^ (z >> 27)).wrapping_mul(0x94D0_49BB_1331_11EB);
        z ^ (z >> 31)
    }

    /// A number below `n`, which is above 0.
    pub fn below(&mut self, n: usize) -> usize {
        (self.next() % n as u64) as usize
    }

    /// A number from `low` to `high`, both among them.
    pub fn between(&mut self, low: usize, high: usize) -> usize {
        low + self.below(high - low + 1)
    }

    pub fn one_in(&mut self, n: usize) -> bool {
        self.below(n) == 0
    }

    pub fn pick<T: Copy>(&mut self, from: &[T]) -> T {
        from[self.below(from.len())]
    }

    pub fn shuffle<T>(&mut self, list: &mut [T]) {
        for last in (1..list.len()).rev() {
            list.swap(self.below(last + 1), last);
        }
    }

    /// From 0 up to but not including 1.
    pub fn unit(&mut self) -> f64 {
        (self.next() >> 11) as f64 / (1u64 << 53) as f64
    }

    /// From −size to size.
    pub fn span(&mut self, size: f64) -> f64 {
        (2.0 * self.unit() - 1.0) * size
    }

    pub fn span3(&mut self, size: f64) -> [f64; 3] {
        [self.span(size), self.span(size), self.span(size)]
    }

    /// Either sign, its exponent anywhere from 2^low to 2^high.
    pub fn scaled(&mut self, low: i32, high: i32) -> f64 {
        let exponent = low + self.below((high - low + 1) as usize) as i32;
        let power = f64::from_bits(((1023 + exponent) as u64) << 52);
        let sign = if self.one_in(2) { 1.0 } else { -1.0 };
        sign * (1.0 + self.unit()) * power
    }

    /// Any f64: bits at random, sizes at random, or an odd one.
    pub fn wild64(&mut self) -> f64 {
        match self.below(4) {
            0 => f64::from_bits(self.next()),
            1 => self.scaled(-1000, 1000),
            2 => self.scaled(-160, 130),
            _ => self.pick(&ODD64),
        }
    }

    /// Any f32: bits at random, sizes at random, or an odd one.
    pub fn wild32(&mut self) -> f32 {
        match self.below(4) {
            0 => f32::from_bits(self.next() as u32),
            1 => self.scaled(-149, 127) as f32,
            2 => self.scaled(-20, 20) as f32,
            _ => self.pick(&ODD32),
        }
    }
}

const ODD64: [f64; 14] = [
    0.0,
    -0.0,
    1.0,
    -1.0,
    0.5,
    2.0,
    f64::NAN,
    f64::INFINITY,
    f64::NEG_INFINITY,
    f64::MAX,
    f64::MIN,
    f64::MIN_POSITIVE,
    5e-324,
    1e300,
];

const ODD32: [f32; 14] = [
    0.0,
    -0.0,
    1.0,
    -1.0,
    0.5,
    2.0,
    f32::NAN,
    f32::INFINITY,
    f32::NEG_INFINITY,
    f32::MAX,
    f32::MIN,
    f32::MIN_POSITIVE,
    1e-45,
    1e19,
];
