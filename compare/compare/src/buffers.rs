//! Lent memory filled with stale numbers beforehand, so that what is untouched and what is cleared can be told.

use restated::random::Random;

/// Stale f32: all NaN, all one number, or any bits.
pub fn stale32(random: &mut Random, length: usize) -> Vec<f32> {
    match random.below(3) {
        0 => vec![f32::NAN; length],
        1 => vec![-7.25e20; length],
        _ => (0..length).map(|_| random.wild32()).collect(),
    }
}

pub fn stale64(random: &mut Random, length: usize) -> Vec<f64> {
    match random.below(3) {
        0 => vec![f64::NAN; length],
        1 => vec![-7.25e200; length],
        _ => (0..length).map(|_| random.wild64()).collect(),
    }
}

/// The bits of both lists are equal, NaN included: nothing was written, or the very same.
pub fn untouched32(before: &[f32], after: &[f32]) -> bool {
    before
        .iter()
        .zip(after)
        .all(|(a, b)| a.to_bits() == b.to_bits())
}

pub fn untouched64(before: &[f64], after: &[f64]) -> bool {
    before
        .iter()
        .zip(after)
        .all(|(a, b)| a.to_bits() == b.to_bits())
}

/// +0 throughout.
pub fn cleared32(numbers: &[f32]) -> bool {
    numbers.iter().all(|x| x.to_bits() == 0)
}

pub fn cleared64(numbers: &[f64]) -> bool {
    numbers.iter().all(|x| x.to_bits() == 0)
}
