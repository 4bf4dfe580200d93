//! Times the port's roots and narrowing beside what they were before Wish 3 of document 02 and beside the processor's own.

use std::hint::black_box;
use std::iter::repeat_with;

use restated::random::Random;

use crate::digits;
use crate::inputs::{hard32, hard64, to_narrow, to_root, Kind, Number, KINDS};
use crate::timing::{in_turn, median};

pub const INPUTS: usize = 1 << 14;

/// Tries at a table: of every kind most are kept.
const TRIES: usize = 1 << 16;

/// A function in its three forms, and a try at an input of a kind.
pub trait Function {
    type Input: Number;
    type Output: Number;
    const NAME: &'static str;
    fn digits(x: Self::Input) -> Self::Output;
    fn port(x: Self::Input) -> Self::Output;
    fn processor(x: Self::Input) -> Self::Output;
    fn input(kind: Kind, random: &mut Random) -> Option<Self::Input>;
}

pub struct Sqrt64;
pub struct Sqrt32;
pub struct Narrow;

impl Function for Sqrt64 {
    type Input = f64;
    type Output = f64;
    const NAME: &'static str = "sqrt64";

    fn digits(x: f64) -> f64 {
        digits::sqrt64(x)
    }

    fn port(x: f64) -> f64 {
        port::sqrt64(x)
    }

    fn processor(x: f64) -> f64 {
        x.sqrt()
    }

    fn input(kind: Kind, random: &mut Random) -> Option<f64> {
        to_root(kind, random, hard64)
    }
}

impl Function for Sqrt32 {
    type Input = f32;
    type Output = f32;
    const NAME: &'static str = "sqrt32";

    fn digits(x: f32) -> f32 {
        digits::sqrt32(x)
    }

    fn port(x: f32) -> f32 {
        port::sqrt32(x)
    }

    fn processor(x: f32) -> f32 {
        x.sqrt()
    }

    fn input(kind: Kind, random: &mut Random) -> Option<f32> {
        to_root(kind, random, hard32)
    }
}

impl Function for Narrow {
    type Input = f64;
    type Output = f32;
    const NAME: &'static str = "narrow";

    fn digits(x: f64) -> f32 {
        digits::narrow(x)
    }

    fn port(x: f64) -> f32 {
        port::narrow(x)
    }

    fn processor(x: f64) -> f32 {
        x as f32
    }

    fn input(kind: Kind, random: &mut Random) -> Option<f64> {
        to_narrow(kind, random)
    }
}

/// Prints a line for each function and kind; whether the three agreed on every input.
pub fn bench(rounds: usize) -> bool {
    println!("roots and narrowing ({INPUTS} inputs of each kind), independent | dependent");
    let agreed = [
        lines::<Sqrt64>(rounds),
        lines::<Sqrt32>(rounds),
        lines::<Narrow>(rounds),
    ];
    agreed.into_iter().all(|agreed| agreed)
}

fn lines<F: Function>(rounds: usize) -> bool {
    let mut agreed = true;
    for (name, kind) in KINDS {
        let inputs = table::<F>(kind);
        match compared::<F>(&inputs, INPUTS) {
            Ok(()) => line(F::NAME, name, medians::<F>(rounds, &inputs)),
            Err(difference) => {
                println!("  {} {name:<10} {difference}", F::NAME);
                agreed = false;
            }
        }
    }
    agreed
}

pub fn table<F: Function>(kind: Kind) -> Vec<F::Input> {
    let mut random = Random::of_case(3, kind as u64, 0);
    let tries = repeat_with(|| F::input(kind, &mut random)).take(TRIES);
    tries.flatten().take(INPUTS).collect()
}

/// The three by bits on every input, of which there must be `least`, and on what the dependent calls may make of it.
pub fn compared<F: Function>(inputs: &[F::Input], least: usize) -> Result<(), String> {
    if inputs.len() < least {
        return Err(format!("ONLY {} INPUTS", inputs.len()));
    }
    let met = inputs.iter().flat_map(|x| [x.bits(), x.bits() ^ 1]);
    for x in met.map(F::Input::of_bits) {
        let (digits, port, processor) = (
            called(F::digits, x),
            called(F::port, x),
            called(F::processor, x),
        );
        if !(digits.same(port) && port.same(processor)) {
            return Err(format!(
                "DIFFER AT {:#x}: digits {:#x}, port {:#x}, processor {:#x}",
                x.bits(),
                digits.bits(),
                port.bits(),
                processor.bits()
            ));
        }
    }
    Ok(())
}

/// Each of the three is called through its own copy of this, which no loop takes in: the port's can't be inlined, and
/// the others must not gain by it. From here the port's is still two jumps away: its crate's function, the archive's.
#[inline(never)]
fn called<I, O>(function: impl Fn(I) -> O, x: I) -> O {
    function(x)
}

fn independent<I: Number, O: Number>(function: impl Fn(I) -> O + Copy, inputs: &[I]) -> u64 {
    let answer = |x: &I| called(function, *x).bits();
    inputs.iter().fold(0, |bits, x| bits ^ answer(x))
}

/// Each call waits for the one before, whose lowest bit is in its input; a hard f32 stays hard only where that is 0.
fn dependent<I: Number, O: Number>(function: impl Fn(I) -> O + Copy, inputs: &[I]) -> u64 {
    let answer = |bits| called(function, I::of_bits(bits)).bits();
    inputs
        .iter()
        .fold(0, |last, x| answer(x.bits() ^ (last & 1)))
}

type Loop<I> = fn(&[I]) -> u64;

/// Nanoseconds a call of digits, port and processor: the independent calls, then the dependent ones.
fn medians<F: Function>(rounds: usize, inputs: &[F::Input]) -> [[f64; 3]; 2] {
    let loops: [[Loop<F::Input>; 3]; 2] = [
        [
            |inputs| independent(F::digits, inputs),
            |inputs| independent(F::port, inputs),
            |inputs| independent(F::processor, inputs),
        ],
        [
            |inputs| dependent(F::digits, inputs),
            |inputs| dependent(F::port, inputs),
            |inputs| dependent(F::processor, inputs),
        ],
    ];
    loops.map(|three| nanoseconds(rounds, inputs, three))
}

fn nanoseconds<I>(rounds: usize, inputs: &[I], three: [Loop<I>; 3]) -> [f64; 3] {
    let run = |calls: Loop<I>| {
        black_box(calls(black_box(inputs)));
    };
    let times = in_turn(rounds, &three.map(|calls| (1, move || run(calls))));
    [0, 1, 2].map(|i| median(&times[i]).as_secs_f64() * 1e9 / inputs.len() as f64)
}

fn line(name: &str, kind: &str, [independent, dependent]: [[f64; 3]; 2]) {
    let both = |i: usize| format!("{:>6.2} | {:>6.2} ns", independent[i], dependent[i]);
    let [digits, port, processor] = [0, 1, 2].map(both);
    let [one, other] = [independent, dependent].map(|times| times[0] / times[1]);
    let times = format!("digits {digits}   port {port}   processor {processor}");
    println!("  {name} {kind:<10} {times}   digits/port {one:>4.2} | {other:.2}");
}

#[cfg(test)]
mod tests {
    use super::*;

    /// A root whose port is one digit off at one input.
    struct Wrong;

    impl Function for Wrong {
        type Input = f64;
        type Output = f64;
        const NAME: &'static str = "wrong";

        fn digits(x: f64) -> f64 {
            Sqrt64::digits(x)
        }

        fn port(x: f64) -> f64 {
            let bits = Sqrt64::port(x).to_bits();
            f64::from_bits(if x == 4.0 { bits + 1 } else { bits })
        }

        fn processor(x: f64) -> f64 {
            Sqrt64::processor(x)
        }

        fn input(_: Kind, _: &mut Random) -> Option<f64> {
            Some(2.0)
        }
    }

    #[test]
    fn too_few_inputs_and_a_difference_are_refused() {
        let beside = f64::from_bits(4.0f64.to_bits() + 1);
        assert_eq!(compared::<Wrong>(&[2.0, 3.0], 2), Ok(()));
        assert!(compared::<Wrong>(&[2.0, 3.0], 3).is_err());
        assert!(compared::<Wrong>(&[], 1).is_err());
        assert!(compared::<Wrong>(&[2.0, 4.0], 2).is_err());
        assert!(compared::<Wrong>(&[2.0, beside], 2).is_err());
    }

    const MANY: u64 = 1 << 32;

    /// The port's answers and the processor's for so many bit patterns; their differences.
    fn differing<F: Function>(pattern: impl FnMut(u64) -> u64) -> usize {
        let inputs = (0..MANY).map(pattern).map(F::Input::of_bits);
        inputs
            .filter(|x| !F::port(*x).same(F::processor(*x)))
            .count()
    }

    #[test]
    #[ignore = "takes minutes"]
    fn every_f32_and_as_many_f64_have_the_processors_answers() {
        let mut random = Random::of_case(4, 0, 0);
        assert_eq!(differing::<Sqrt32>(|bits| bits), 0);
        assert_eq!(differing::<Sqrt64>(|_| random.next() >> 1), 0);
        assert_eq!(differing::<Narrow>(|_| random.next()), 0);
    }

    fn all<F: Function>(kind: Kind, fits: impl Fn(F::Input) -> bool) -> bool {
        let inputs = table::<F>(kind);
        assert_eq!(inputs.len(), INPUTS);
        inputs.into_iter().all(fits)
    }

    #[test]
    fn tables_are_full_and_of_their_kind() {
        let between = |x: f64, low, high| (2f64.powi(low)..2f64.powi(high)).contains(&x);
        assert!(all::<Sqrt64>(Kind::Ordinary, |x| between(x, -20, 20)));
        assert!(all::<Sqrt32>(Kind::Ordinary, |x| between(
            x.into(),
            -20,
            20
        )));
        assert!(all::<Narrow>(Kind::Ordinary, |x| between(x.abs(), -20, 20)));
        assert!(all::<Sqrt64>(Kind::Subnormal, |x| x.is_subnormal()));
        assert!(all::<Sqrt32>(Kind::Subnormal, |x| x.is_subnormal()));
        assert!(all::<Narrow>(Kind::Subnormal, |x| (x as f32).is_subnormal()));
        assert!(all::<Sqrt64>(Kind::Huge, |x| x.is_finite() && 2f64.powi(1008) <= x));
        assert!(all::<Sqrt32>(Kind::Huge, |x| x.is_finite() && 2f32.powi(112) <= x));
        assert!(all::<Narrow>(Kind::Huge, |x| between(x.abs(), 120, 136)));
    }

    #[test]
    fn hard_inputs_lie_just_below_the_middle_or_beside_a_tie() {
        let past = |x: f64, digits: u32| x.to_bits() & ((1 << digits) - 1);
        let half = 1 << 25;
        assert!(all::<Sqrt64>(Kind::Hard, |x| (half - 64..=half)
            .contains(&past(x.sqrt(), 26))));
        let half = 1 << 28;
        assert!(all::<Sqrt32>(Kind::Hard, |x| (half - (1 << 21)..=half)
            .contains(&past(f64::from(x).sqrt(), 29))));
        assert!(all::<Narrow>(Kind::Hard, |x| (0x0fff_ffff..=0x1000_0001)
            .contains(&past(x, 29))));
    }

    #[test]
    fn both_parities_and_both_signs_are_met() {
        for kind in [Kind::Ordinary, Kind::Huge, Kind::Hard] {
            for bit in [0, 1] {
                assert!(!all::<Sqrt64>(kind, |x| (x.to_bits() >> 52) & 1 == bit));
                assert!(!all::<Sqrt32>(kind, |x| (x.to_bits() >> 23) & 1 == bit as u32));
                assert!(!all::<Narrow>(kind, |x| x.to_bits() >> 63 == bit));
            }
        }
    }
}
