//! The roots, a digit a turn, and the narrowing as they were before Wish 3 of document 02, transcribed from the port.
//! They are kept here only to measure against.
#![allow(clippy::eq_op, clippy::zero_divided_by_zero)]

/// q / 2^sh to the nearest whole number, a tie to the even one.
fn nearest_shift(q: u64, sh: u64) -> u64 {
    let w = q >> sh;
    let rest = q & ((1u64 << sh) - 1);
    let half = 1u64 << (sh - 1);
    if rest < half {
        w
    } else if half < rest {
        w + 1
    } else {
        w + (w & 1)
    }
}

/// The bits, without the sign's, of the f32 nearest to the f64 of the bits `mag`, which has no sign and is no NaN.
fn narrow_bits(mag: u64) -> u32 {
    let e = mag >> 52;
    if e < 873 {
        return 0;
    }
    let q = (mag & 0xf_ffff_ffff_ffff) + 0x10_0000_0000_0000;
    if e < 897 {
        return nearest_shift(q, 926 - e) as u32;
    }
    let n = ((e - 897) << 23) + nearest_shift(q, 29);
    if n < 0x7f80_0000 {
        n as u32
    } else {
        0x7f80_0000
    }
}

/// The nearest f32, a tie to the even one, overflow to an infinity, a NaN to a NaN.
pub fn narrow(x: f64) -> f32 {
    if x != x {
        return 0.0f32 / 0.0f32;
    }
    let b: u64 = f64::to_bits(x);
    let sign = (b >> 63) as u32;
    let mag = narrow_bits(b & 0x7fff_ffff_ffff_ffff);
    f32::from_bits((sign << 31) + mag)
}

/// A root in digits: q is the whole part of the root of q * q + rest.
struct Root {
    q: u64,
    rest: u64,
}

/// One digit more, as two digits of the number are brought down.
fn digit(r: Root, two: u64) -> Root {
    let rest = r.rest * 4 + two;
    let q = r.q * 2;
    let trial = q * 2 + 1;
    if rest < trial {
        Root { q, rest }
    } else {
        Root {
            q: q + 1,
            rest: rest - trial,
        }
    }
}

/// The root of m * 4^z and what is left, digit by digit.
fn digits(m: u64, z: u64) -> Root {
    let n = z + 27;
    let mut r = Root { q: 0, rest: 0 };
    let mut left = m;
    let mut d = 0u64;
    while d < n {
        r = digit(r, left >> 52);
        left = (left & 0xf_ffff_ffff_ffff) << 2;
        d += 1;
    }
    r
}

/// The bits of the root of q * 2^a / 4^low, rounded, in a format of w + 1 digits, for q of w + 1 digits. z is how
/// many pairs of zeros are brought down after q's own digits, which are at most 54.
fn root_bits(q: u64, a: u64, w: u64, z: u64) -> u64 {
    let c = w + ((a + w) & 1);
    let k = (a - c) >> 1;
    let r = digits(q << (c - z * 2), z);
    let high = k << w;
    if r.q < r.rest {
        high + (r.q + 1)
    } else {
        high + r.q
    }
}

/// q * 2^a
struct Scaled {
    q: u64,
    a: u64,
}

/// t * 2^a with t shifted up to w + 1 digits.
fn lifted(t: u64, a: u64, w: u64) -> Scaled {
    let least = 1u64 << w;
    let mut q = t;
    let mut i = 0u64;
    while q < least {
        q <<= 1;
        i += 1;
    }
    Scaled { q, a: a - i }
}

/// The bits of the root of the number of the bits b, which is finite and above 0, in the format of w + 1 digits
/// whose smallest value is 2^-least.
fn sqrt_bits(b: u64, w: u64, least: u64, z: u64) -> u64 {
    let e = b >> w;
    let t = b & ((1u64 << w) - 1);
    if e == 0 {
        let n = lifted(t, least, w);
        root_bits(n.q, n.a, w, z)
    } else {
        root_bits(t + (1u64 << w), e - 1 + least, w, z)
    }
}

/// The root of x, rounded once; a NaN below 0.
pub fn sqrt64(x: f64) -> f64 {
    if x != x {
        return x;
    }
    let b: u64 = f64::to_bits(x);
    if (b & 0x7fff_ffff_ffff_ffff) == 0 {
        return x;
    }
    if 0x7fff_ffff_ffff_ffff < b {
        return 0.0f64 / 0.0f64;
    }
    if 0x7ff0_0000_0000_0000 <= b {
        return x;
    }
    f64::from_bits(sqrt_bits(b, 52, 1074, 26))
}

pub fn sqrt32(x: f32) -> f32 {
    if x != x {
        return x;
    }
    let b: u32 = f32::to_bits(x);
    if (b & 0x7fff_ffff) == 0 {
        return x;
    }
    if 0x7fff_ffff < b {
        return 0.0f32 / 0.0f32;
    }
    if 0x7f80_0000 <= b {
        return x;
    }
    f32::from_bits(sqrt_bits(b as u64, 23, 149, 0) as u32)
}

#[cfg(test)]
mod tests {
    use std::iter::repeat_with;

    use restated::random::Random;

    use crate::inputs::{Number, KINDS};
    use crate::numbers::{compared, table, Function, Narrow, Sqrt32, Sqrt64, INPUTS};

    const WILD: usize = 1 << 22;

    /// Against the port and the processor; too few inputs are refused.
    fn agrees<F: Function>(wild: fn(&mut Random) -> F::Input, edges: &[F::Input]) {
        let mut random = Random::of_case(2, 0, 0);
        let wild: Vec<F::Input> = repeat_with(|| wild(&mut random)).take(WILD).collect();
        assert_eq!(compared::<F>(&wild, 1_000_000), Ok(()));
        assert_eq!(compared::<F>(edges, 1), Ok(()));
        for (name, kind) in KINDS {
            assert_eq!(compared::<F>(&table::<F>(kind), INPUTS), Ok(()), "{name}");
        }
    }

    /// Zero, every power of two down to the smallest subnormal, infinity and NaN, with their neighbours; both signs.
    fn edges<N: Number>() -> Vec<N> {
        let last = 2 * N::BIAS as u64 + 1;
        let sign = (last + 1) << N::WIDTH;
        let subnormal = (0..N::WIDTH).map(|digit| 1 << digit);
        let normal = (1..=last).map(|exponent| exponent << N::WIDTH);
        let nan = [sign - 2, sign - (1 << (N::WIDTH - 1))];
        let points = subnormal.chain(normal).chain(nan);
        let near = points.flat_map(|bits: u64| [bits - 1, bits, bits + 1]);
        near.flat_map(|bits| [bits, bits | sign])
            .map(N::of_bits)
            .collect()
    }

    /// Squares of whole numbers of 27 digits and whole numbers beside them, as the nearest f64.
    fn squares() -> Vec<f64> {
        let mut random = Random::of_case(2, 1, 0);
        let square = || {
            let a = random.between(1 << 26, (1 << 27) - 1);
            (a * a - 64 + random.between(0, 128)) as f64
        };
        repeat_with(square).take(INPUTS).collect()
    }

    /// The middles of f32 and their next, which past the largest is 2^128, and the f64 beside them; both signs.
    fn ties() -> Vec<f64> {
        let next = |x: f32| match f32::from_bits(x.to_bits() + 1) {
            f32::INFINITY => 2f64.powi(128),
            next => f64::from(next),
        };
        edges::<f32>()
            .into_iter()
            .filter(|x| x.is_sign_positive() && x.is_finite())
            .map(|x| (f64::from(x) + next(x)) / 2.0)
            .flat_map(|tie| [-1, 0, 1].map(|beside| tie.to_bits().wrapping_add_signed(beside)))
            .flat_map(|bits| [f64::from_bits(bits), -f64::from_bits(bits)])
            .collect()
    }

    #[test]
    fn sqrt64_is_the_ports_and_the_processors() {
        agrees::<Sqrt64>(Random::wild64, &[edges(), squares()].concat());
    }

    #[test]
    fn sqrt32_is_the_ports_and_the_processors() {
        agrees::<Sqrt32>(Random::wild32, &edges());
    }

    #[test]
    fn narrow_is_the_ports_and_the_processors() {
        agrees::<Narrow>(Random::wild64, &[edges(), ties()].concat());
    }
}
