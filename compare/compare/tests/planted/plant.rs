//! What is planted, in which cases, and that it is seen; and the smallest changes of numbers.

use std::cell::Cell;

use compare::kinds::{kinds, Kind};
use compare::Comparison;
use port::{Exports, EXPORTS};

/// The port with one function changed, and the kind whose cases must show it.
pub struct Plant {
    pub what: &'static str,
    pub kind: &'static str,
    pub port: Exports,
}

const SEED: u64 = 20_261_116;
/// Of a kind so many cases are looked at, or all that there are; the faulty ones go through twenty rows.
const CASES: usize = 24;
/// In so many of them it must have been planted; of kinds that have fewer cases, in one.
const LEAST: usize = 3;

thread_local! {
    /// How often this thread's plants changed something.
    static PLANTED: Cell<usize> = const { Cell::new(0) };
}

/// To be called where a change was made.
pub fn planted() {
    PLANTED.set(PLANTED.get() + 1);
}

pub fn all_seen(plants: &[Plant]) {
    let kinds = kinds();
    for plant in plants {
        let place = kinds.iter().position(|kind| kind.name == plant.kind);
        let place = place.expect("a kind of that name");
        let cases = (kinds[place].count)(CASES).min(CASES);
        let made = (0..cases)
            .filter(|index| seen(plant, place, &kinds[place], *index))
            .count();
        let name = format!("{}, in {}", plant.what, plant.kind);
        let least = if cases < CASES { 1 } else { LEAST };
        assert!(made >= least, "{name}: planted {made} times");
    }
}

/// Whether it was planted in this case. The case must differ there, and nowhere else.
fn seen(plant: &Plant, place: usize, kind: &Kind, index: usize) -> bool {
    let plain = Comparison::with(EXPORTS).check(SEED, place, kind, index);
    let name = format!("{}, in {} {index}", plant.what, kind.name);
    assert!(
        plain.lines.is_empty(),
        "{name}: {:?} unplanted",
        plain.lines
    );
    let before = PLANTED.get();
    let changed = Comparison::with(plant.port).check(SEED, place, kind, index);
    let made = PLANTED.get() > before;
    let differs = !changed.lines.is_empty();
    assert!(differs == made, "{name}: planted {made}, seen {differs}");
    made
}

/// The lowest bit of the last number that is none but itself: a NaN equals any NaN.
pub fn bit32(numbers: &mut [f32]) {
    if let Some(x) = numbers.iter_mut().rev().find(|x| !x.is_nan()) {
        *x = f32::from_bits(x.to_bits() ^ 1);
        planted();
    }
}

pub fn bit64(numbers: &mut [f64]) {
    if let Some(x) = numbers.iter_mut().rev().find(|x| !x.is_nan()) {
        *x = f64::from_bits(x.to_bits() ^ 1);
        planted();
    }
}

/// The lowest bit of the last number, a NaN too: what must stay as found keeps its very bits.
pub fn touch32(numbers: &mut [f32]) {
    if let Some(x) = numbers.last_mut() {
        *x = f32::from_bits(x.to_bits() ^ 1);
        planted();
    }
}

pub fn touch64(numbers: &mut [f64]) {
    if let Some(x) = numbers.last_mut() {
        *x = f64::from_bits(x.to_bits() ^ 1);
        planted();
    }
}

/// The lowest bit of a whole number.
pub fn flip<T: Copy + std::ops::BitXor<Output = T> + From<u8>>(number: Option<&mut T>) {
    if let Some(number) = number {
        *number = *number ^ T::from(1);
        planted();
    }
}
