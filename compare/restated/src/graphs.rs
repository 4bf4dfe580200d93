//! Random pose graphs that pass rows 1 to 19, and mostly 26: rings, grids and far first guesses,
//! each for either manifold.

use crate::case::Case;
use crate::places::{grid_places, ring_places, Place};
use crate::random::Random;

/// How far first guesses and measurements stray from the truth.
#[derive(Copy, Clone)]
pub struct Noise {
    pub turn: f64,
    pub shift: f64,
    pub measured: f64,
}

pub const CALM: Noise = Noise {
    turn: 0.05,
    shift: 0.2,
    measured: 0.01,
};

/// The place, moved and turned by up to so much.
pub fn strayed(random: &mut Random, place: Place, turn: f64, shift: f64) -> Place {
    let by = Place::turned(random.span3(turn), random.span3(shift));
    place.after(by)
}

/// An empty case with ordinary settings.
pub fn blank(gravity: Option<[f64; 3]>) -> Case {
    Case {
        gravity,
        poses: Vec::new(),
        ends: Vec::new(),
        edges: Vec::new(),
        fixed: vec![0],
        limit: 30,
        cost_tolerance: 1e-6,
        gradient_tolerance: 1e-6,
        damping: 1e-3,
        work32: 0,
        work64: 0,
        out: 0,
    }
}

/// Each with the next and the last with the first; two of them once, one alone with nothing.
pub(crate) fn closed_pairs(n: usize) -> Vec<(usize, usize)> {
    match n {
        0..=2 => (1..n).map(|i| (i - 1, i)).collect(),
        _ => (0..n).map(|i| (i, (i + 1) % n)).collect(),
    }
}

/// Ring edges and `loops` more.
fn ring_pairs(random: &mut Random, n: usize, loops: usize) -> Vec<(usize, usize)> {
    let mut pairs = closed_pairs(n);
    for _ in 0..loops {
        let a = random.below(n);
        let b = (a + 1 + random.below(n - 1)) % n;
        pairs.push((a, b));
    }
    pairs
}

fn grid_pairs(wide: usize, high: usize) -> Vec<(usize, usize)> {
    let mut pairs = Vec::new();
    for row in 0..high {
        for column in 0..wide {
            let at = row * wide + column;
            if column + 1 < wide {
                pairs.push((at, at + 1));
            }
            if row + 1 < high {
                pairs.push((at, at + wide));
            }
        }
    }
    pairs
}

/// A case from true places and the pairs that edges join; either end of a pair may come first.
pub(crate) fn case_of(
    random: &mut Random,
    gravity: Option<[f64; 3]>,
    places: &[Place],
    pairs: &[(usize, usize)],
    noise: Noise,
) -> Case {
    let mut case = blank(gravity);
    for (i, place) in places.iter().enumerate() {
        let calm = i == 0;
        let guess = if calm {
            *place
        } else {
            strayed(random, *place, noise.turn, noise.shift)
        };
        case.poses.extend(guess.numbers());
    }
    for &(a, b) in pairs {
        let (a, b) = if random.one_in(3) { (b, a) } else { (a, b) };
        let between = places[b].after(places[a].inverse());
        let measured = strayed(random, between, noise.measured, noise.measured);
        push_edge(&mut case, a, b, measured.measured(), weight(random));
    }
    case.fit();
    case
}

pub fn push_edge(case: &mut Case, a: usize, b: usize, measured: [f32; 7], weight: f32) {
    case.ends.extend([a as u32, b as u32]);
    case.edges.extend(measured);
    case.edges.push(weight);
}

fn weight(random: &mut Random) -> f32 {
    match random.below(12) {
        0 => 0.0,
        1 => -1.0,
        2..=6 => 1.0,
        _ => (0.1 + 2.0 * random.unit()) as f32,
    }
}

/// Gravity of any length, for DOF 4.
pub fn any_gravity(random: &mut Random) -> [f64; 3] {
    match random.below(3) {
        0 => [0.0, 0.0, -9.81],
        1 => [0.0, 1.0, 0.0],
        _ => {
            let size = random.scaled(-20, 20).abs();
            [size, random.span(size), random.span(size)]
        }
    }
}

/// Other settings than the ordinary: limits, tolerances, first dampings, fixed poses, larger work.
fn vary(random: &mut Random, case: &mut Case) {
    vary_settings(random, case);
    vary_fixed(random, case);
    lend(random, case);
}

pub(crate) fn vary_settings(random: &mut Random, case: &mut Case) {
    case.limit = random.pick(&[1, 2, 3, 8, 30, 30, 60]);
    case.cost_tolerance = random.pick(&[0.0, -0.0, 1e-9, 1e-6, 1e-6, 1e-3, 0.5]);
    case.gradient_tolerance = random.pick(&[0.0, -0.0, 1e-9, 1e-6, 1e-6, 1e-3, 1.0]);
    case.damping = random.pick(&[1e-3, 1e-3, 1e-4, 1.0, 1e-20, 1e-45, 1e4, 1e9, 1e10]);
}

/// The work that is needed, or more.
pub(crate) fn lend(random: &mut Random, case: &mut Case) {
    case.fit();
    if random.one_in(3) {
        case.work32 += random.between(1, 17);
        case.work64 += random.between(1, 17);
    }
}

/// Pose 0 once or three times, others, or seldom nothing at all, which row 26 turns down.
fn vary_fixed(random: &mut Random, case: &mut Case) {
    let n = case.pose_count();
    match random.below(30) {
        0 => case.fixed.clear(),
        1..=5 => case.fixed = vec![0, 0, 0],
        6..=10 if n > 2 => {
            let count = random.between(1, n - 2);
            case.fixed = (0..count).map(|_| random.below(n - 1) as u32).collect();
        }
        _ => {}
    }
    if case.free_count() == 0 {
        case.fixed = vec![0];
    }
}

/// A pose that no edge names, put in behind the others.
fn idle_pose(random: &mut Random, case: &mut Case) {
    let place = Place::turned(random.span3(1.0), random.span3(5.0));
    case.poses.extend(place.numbers());
    case.fit();
}

pub fn ring(random: &mut Random, gravity: Option<[f64; 3]>) -> Case {
    let n = random.between(2, 12);
    ring_of(random, gravity, n, CALM)
}

pub(crate) fn ring_of(
    random: &mut Random,
    gravity: Option<[f64; 3]>,
    n: usize,
    noise: Noise,
) -> Case {
    let loops = random.below(4);
    let places = ring_places(random, n);
    let pairs = ring_pairs(random, n, loops);
    let mut case = case_of(random, gravity, &places, &pairs, noise);
    if random.one_in(4) {
        idle_pose(random, &mut case);
    }
    vary(random, &mut case);
    case
}

pub fn grid(random: &mut Random, gravity: Option<[f64; 3]>) -> Case {
    let (wide, high) = (random.between(2, 5), random.between(1, 4));
    let places = grid_places(random, wide, high);
    let mut case = case_of(random, gravity, &places, &grid_pairs(wide, high), CALM);
    vary(random, &mut case);
    case
}

/// First guesses and measurements far from the truth, by turns up to a whole one and by long shifts.
pub fn far(random: &mut Random, gravity: Option<[f64; 3]>) -> Case {
    let noise = Noise {
        turn: random.pick(&[0.5, 2.0, 4.0]),
        shift: random.pick(&[1.0, 30.0, 1e3, 1e6]),
        measured: random.pick(&[0.01, 0.3, 3.0]),
    };
    let n = random.between(2, 9);
    let mut case = ring_of(random, gravity, n, noise);
    case.damping = random.pick(&[1e-10, 1e-6, 1e-3, 1.0, 1e6]);
    case
}

/// A ring of up to 60 views with many loop edges, and a short limit.
pub fn large(random: &mut Random, gravity: Option<[f64; 3]>) -> Case {
    let (views, loops) = (random.between(20, 60), random.between(0, 200));
    let places = ring_places(random, views);
    let pairs = ring_pairs(random, views, loops);
    let mut case = case_of(random, gravity, &places, &pairs, CALM);
    case.limit = random.pick(&[1, 3, 6]);
    case
}

/// A calm ring of fixed size with pose 0 fixed and loop edges, all weights 1.
pub fn calm_ring(random: &mut Random, views: usize, loops: usize) -> Case {
    let places = ring_places(random, views);
    let pairs = ring_pairs(random, views, loops);
    let mut case = case_of(random, None, &places, &pairs, CALM);
    for weight in case.edges.iter_mut().skip(7).step_by(8) {
        *weight = 1.0;
    }
    case
}

#[cfg(test)]
mod tests {
    use super::*;
    use crate::expect::expected;
    use crate::wild::wild;

    type Kind = fn(&mut Random, Option<[f64; 3]>) -> Case;

    /// How often each refusal and each stop came, over both manifolds.
    fn tried(kind: Kind, salt: u64, count: u64) -> ([u32; 27], [u32; 6]) {
        let (mut numbers, mut stops) = ([0; 27], [0; 6]);
        for index in 0..count {
            let mut random = Random::of_case(7, salt, index);
            let gravity = random.one_in(2).then(|| any_gravity(&mut random));
            let case = kind(&mut random, gravity);
            let e = expected(&case);
            assert!(
                e.doubts.is_empty(),
                "{salt} {index}: {:?} {case:?}",
                e.doubts
            );
            numbers[e.answer[0] as usize] += 1;
            stops[e.answer[7] as usize] += 1;
        }
        (numbers, stops)
    }

    #[test]
    fn restated_run_agrees_with_the_original_and_every_ending_is_met() {
        let mut all = ([0; 27], [0; 6]);
        for (salt, kind) in [ring as Kind, grid, far, wild].into_iter().enumerate() {
            let (numbers, stops) = tried(kind, salt as u64, 80);
            println!("{salt}: {numbers:?} {stops:?}");
            assert!(numbers[26] < 20, "row 26 turns down {}", numbers[26]);
            for (sum, n) in all.0.iter_mut().zip(numbers) {
                *sum += n;
            }
            for (sum, n) in all.1.iter_mut().zip(stops) {
                *sum += n;
            }
        }
        assert!(all.0[1..=19].iter().all(|n| *n == 0), "{:?}", all.0);
        assert!(all.0[20..=22].iter().all(|n| *n > 0), "{:?}", all.0);
        assert!(all.0[26] > 0, "{:?}", all.0);
        assert!(all.1[1..].iter().all(|n| *n > 0), "{:?}", all.1);
    }
}
