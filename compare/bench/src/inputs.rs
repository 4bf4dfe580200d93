//! The inputs that the roots and the narrowing are timed on, four kinds of them.

use std::sync::LazyLock;

use restated::random::Random;

#[derive(Copy, Clone)]
pub enum Kind {
    Ordinary,
    Subnormal,
    Huge,
    Hard,
}

pub const KINDS: [(&str, Kind); 4] = [
    ("ordinary", Kind::Ordinary),
    ("subnormal", Kind::Subnormal),
    ("huge", Kind::Huge),
    ("hard", Kind::Hard),
];

/// The numbers of a format, by their bits.
pub trait Number: Copy {
    /// How many digits the fraction has.
    const WIDTH: u32;
    const BIAS: i32;
    fn of_bits(bits: u64) -> Self;
    fn bits(self) -> u64;
    fn same(self, other: Self) -> bool;
}

impl Number for f64 {
    const WIDTH: u32 = 52;
    const BIAS: i32 = 1023;

    fn of_bits(bits: u64) -> Self {
        f64::from_bits(bits)
    }

    fn bits(self) -> u64 {
        self.to_bits()
    }

    fn same(self, other: Self) -> bool {
        restated::same64(self, other)
    }
}

impl Number for f32 {
    const WIDTH: u32 = 23;
    const BIAS: i32 = 127;

    fn of_bits(bits: u64) -> Self {
        f32::from_bits(bits as u32)
    }

    fn bits(self) -> u64 {
        u64::from(self.to_bits())
    }

    fn same(self, other: Self) -> bool {
        restated::same32(self, other)
    }
}

/// From 2^low up to 2^(high + 1), each exponent as likely as the others.
fn sized<N: Number>(random: &mut Random, low: i32, high: i32) -> N {
    let exponent = low + random.below((high - low + 1) as usize) as i32;
    let fraction = random.next() & ((1 << N::WIDTH) - 1);
    N::of_bits((((N::BIAS + exponent) as u64) << N::WIDTH) | fraction)
}

/// A significand of two digits or more, each count of digits as likely as the others.
fn subnormal<N: Number>(random: &mut Random) -> N {
    let top = 1 << random.between(1, N::WIDTH as usize - 1);
    N::of_bits(top | (random.next() & (top - 1)))
}

/// A try at a number to take the root of; `hard` tries for one whose root is hard to guess.
pub fn to_root<N: Number>(
    kind: Kind,
    random: &mut Random,
    hard: fn(&mut Random) -> Option<N>,
) -> Option<N> {
    match kind {
        Kind::Ordinary => Some(sized(random, -20, 19)),
        Kind::Subnormal => Some(subnormal(random)),
        Kind::Huge => Some(sized(random, N::BIAS - 15, N::BIAS)),
        Kind::Hard => hard(random),
    }
}

/// The port's guess at the root of q * 2^odd * 2^52, for q of 53 digits: `guess` of its crate roots, transcribed so that
/// the inputs can be told for which it fails its test. Those are the hard ones.
fn guess(q: u64, odd: u64) -> u64 {
    let bits = q + ((1022 + odd) << 52);
    let x = f64::from_bits(bits);
    let g = f64::from_bits((bits >> 1) + 0x1ff7_a3be_a91d_9b1b);
    let s = g * g;
    let u = s + x;
    let (sx, uu) = (s * x, u * u);
    let better = u * (uu + 12.0 * sx) / ((g + g) * (3.0 * uu + 4.0 * sx));
    better.to_bits().wrapping_add(1 << 53) & ((1 << 54) - 1)
}

/// Whether the guess, less so many digits, is not the whole number nearest to the root of m.
fn fails(m: u64, guess: u64, digits: u32) -> bool {
    let n = (guess + (1 << (digits - 1))) >> digits;
    m + n <= n * n || n * n + n < m
}

/// m * 4^k, for a whole m whose root lies just below the half between two whole numbers of 27 digits.
pub fn hard64(random: &mut Random) -> Option<f64> {
    let a = random.between(1 << 26, (1 << 27) - 1) as u64;
    let m = a * a + a - random.below(64) as u64;
    let odd = m >> 53;
    let q = m >> odd;
    let exponent = 2 * random.between(0, 19) as i32 - 72;
    let power = f64::from_bits(((1023 + exponent) as u64) << 52);
    let hard = fails(q << odd, guess(q, odd), 26);
    hard.then_some((q << odd) as f64 * power)
}

/// The significands of the hard f32, each with the parity of its exponent.
static HARD32: LazyLock<Vec<(u64, u64)>> = LazyLock::new(|| {
    let all = (1 << 23..1 << 24).flat_map(|q: u64| [(q, 0), (q, 1)]);
    all.filter(|&(q, odd)| fails(q << (23 + odd), guess(q << 29, odd), 29))
        .collect()
});

pub fn hard32(random: &mut Random) -> Option<f32> {
    let (q, odd) = *HARD32.get(random.below(HARD32.len().max(1)))?;
    let field = 127 - 20 + odd + 2 * random.below(20) as u64;
    Some(f32::from_bits(((field - 1) << 23) as u32 + q as u32))
}

/// A try at a number to narrow, of either sign.
pub fn to_narrow(kind: Kind, random: &mut Random) -> Option<f64> {
    let size: f64 = match kind {
        Kind::Ordinary => sized(random, -20, 19),
        Kind::Subnormal => sized(random, -150, -127),
        Kind::Huge => sized(random, 120, 135),
        Kind::Hard => near_tie(random),
    };
    let x = if random.one_in(2) { size } else { -size };
    let kept = !matches!(kind, Kind::Subnormal) || (x as f32).is_subnormal();
    kept.then_some(x)
}

/// A tie between two f32, or the f64 on either side of it.
fn near_tie(random: &mut Random) -> f64 {
    let x: f64 = sized(random, -20, 19);
    let low = random.pick(&[0x0fff_ffff, 0x1000_0000, 0x1000_0001]);
    f64::from_bits((x.to_bits() & !0x1fff_ffff) | low)
}
