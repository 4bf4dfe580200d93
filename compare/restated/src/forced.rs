//! Small graphs with what the original's hooks can force: failed factorisations, solves that break down, one step.

use original_hooked::Forced;

use crate::case::Case;
use crate::graphs::{any_gravity, far, ring};
use crate::random::Random;
use crate::table::refused;

pub fn forced(random: &mut Random) -> (Case, Forced) {
    let mut case = passing(random);
    case.limit = random.pick(&[1, 2, 5, 20]);
    let forced = Forced {
        factorization_failures: random.pick(&[0, 0, 1, 2, 9, 10, 11, 12, 13, 55]),
        solve_breakdowns: random.pick(&[0, 0, 0, 1, 3, 12]),
        step: step(random, case.dof(), case.unknowns()),
    };
    (case, forced)
}

/// A graph that no row turns down.
fn passing(random: &mut Random) -> Case {
    loop {
        let gravity = random.one_in(2).then(|| any_gravity(random));
        let case = if random.one_in(2) {
            ring(random, gravity)
        } else {
            far(random, gravity)
        };
        if refused(&case).is_none() {
            return case;
        }
    }
}

/// No step; a step of nothing, one too small, one of any size; one whose turns are too far to be taken, or whose
/// shifts are, so that the retraction or the cost fails.
fn step(random: &mut Random, dof: usize, n: usize) -> Option<Vec<f32>> {
    let (shift, turn) = match random.below(8) {
        0 => return None,
        1 => (0.0, 0.0),
        2 => (1e-8, 1e-8),
        3 => (0.1, 0.1),
        4 => (5.0, 5.0),
        5 => (1.0, 1e3),
        6 => (1e30, 0.1),
        _ => (1e38, 1e38),
    };
    let number = |i: usize| random.span(if i % dof < 3 { shift } else { turn }) as f32;
    Some((0..n).map(number).collect())
}

#[cfg(test)]
mod tests {
    use super::*;
    use crate::decide::Event;
    use crate::expect::expected_forced;

    #[test]
    fn hooked_runs_agree_and_every_event_is_met() {
        let mut met = [0; 7];
        for index in 0..300 {
            let (case, forced) = forced(&mut Random::of_case(3, 9, index));
            let e = expected_forced(&case, Some(&forced));
            assert!(e.doubts.is_empty(), "{index}: {:?}", e.doubts);
            for event in e.list.iter().flat_map(|list| &list.events) {
                met[number(event)] += 1;
            }
        }
        assert!(met[1..].iter().all(|count| *count > 0), "{met:?}");
    }

    fn number(event: &Event) -> usize {
        match event {
            Event::AssemblyRefused { .. } => 0,
            Event::GradientBelow => 1,
            Event::SolveFailed => 2,
            Event::StepSmall => 3,
            Event::Trial { .. } => 4,
            Event::RetractionFailed => 5,
            Event::CostFailed => 6,
        }
    }
}
