//! Random event lists for the decisions, going further than the original's hooks.

use crate::decide::{Event, List};
use crate::random::Random;

/// A list under any settings; prices are finite, NaN or +infinity, as document 01 names what those mean.
pub fn list(random: &mut Random) -> List {
    let length = random.pick(&[0, 1, 2, 5, 12, 30, 70]);
    let cost = random.pick(&[0.0, 1e-30, 0.5, 1.0, 1e6, 3e38]);
    let mut lowest = cost;
    let taste = random.below(4);
    let mut events = Vec::new();
    for _ in 0..length {
        events.push(event(random, taste, &mut lowest));
    }
    List {
        limit: limit(random),
        tolerance: random.pick(&[0.0, -0.0, 1e-6, 1e-3, 0.5, 1.0]),
        cost,
        damping: random.pick(&[1e-45, 1e-20, 1e-10, 1e-9, 1e-3, 1.0, 1e8, 1e9, 1e10]),
        events,
    }
    .with_bad_settings(random)
}

fn limit(random: &mut Random) -> u32 {
    match random.below(3) {
        0 => random.pick(&[1, 2, 3, 999, 1000]),
        _ => random.between(1, 40) as u32,
    }
}

/// One event, by the list's taste: lists of trials, of failures, of anything.
fn event(random: &mut Random, taste: usize, lowest: &mut f32) -> Event {
    match (taste, random.below(20)) {
        (0, 0..=17) => trial(random, lowest),
        (1, 0..=15) => Event::SolveFailed,
        (2, 0..=16) => random.pick(&[Event::RetractionFailed, Event::CostFailed]),
        (_, 0) => Event::AssemblyRefused { edge: 0 },
        (_, 1) => Event::GradientBelow,
        (_, 2) => Event::StepSmall,
        (_, 3..=6) => Event::SolveFailed,
        (_, 7..=8) => Event::RetractionFailed,
        (_, 9..=10) => Event::CostFailed,
        _ => trial(random, lowest),
    }
}

/// A trial: a lower cost, an equal one, a higher one, one that is no number.
fn trial(random: &mut Random, lowest: &mut f32) -> Event {
    let cost = match random.below(10) {
        0 => *lowest,
        1 => *lowest * 2.0 + 1.0,
        2 => random.pick(&[f32::NAN, f32::INFINITY]),
        3 => f32::from_bits(lowest.to_bits().saturating_sub(1)),
        4 => *lowest * 0.999999,
        5 => 0.0,
        _ => *lowest * random.unit() as f32,
    };
    if cost < *lowest {
        *lowest = cost;
    }
    Event::Trial { cost }
}

impl List {
    /// Now and then a setting that rows 15 to 17 or 19 refuse.
    fn with_bad_settings(mut self, random: &mut Random) -> Self {
        match random.below(40) {
            0 => self.limit = 0,
            1 => self.limit = random.pick(&[1001, u32::MAX]),
            2 => self.tolerance = random.pick(&[f32::NAN, f32::INFINITY, -1e-45]),
            3 => self.damping = random.pick(&[f32::NAN, 0.0, -0.0, -1.0, 2e10, f32::INFINITY]),
            _ => {}
        }
        self
    }
}
