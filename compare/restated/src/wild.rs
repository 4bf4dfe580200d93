//! Graphs with numbers near overflow, and those made so that a run is refused by rows 20, 21 and 22.

use crate::case::{se3, transform, transform_numbers, Case};
use crate::graphs::{blank, push_edge, ring_of, CALM};
use crate::places::Place;
use crate::random::Random;

/// A ring of which some numbers are made huge or tiny; what would be refused by rows 6 to 10 is put right again.
pub fn wild(random: &mut Random, gravity: Option<[f64; 3]>) -> Case {
    let n = random.between(2, 6);
    let mut case = ring_of(random, gravity, n, CALM);
    match random.below(8) {
        0 => wild_translations(random, &mut case),
        1 => wild_rotations(random, &mut case),
        2 => wild_weights(random, &mut case),
        3 => wild_measurements(random, &mut case),
        4 => exact_and_heavy(random, &mut case),
        5 => loose_and_heavy(random, &mut case),
        6 => pulled_star(random, &mut case),
        _ => {
            wild_translations(random, &mut case);
            wild_weights(random, &mut case);
            wild_measurements(random, &mut case);
        }
    }
    case.fit();
    case
}

fn wild_translations(random: &mut Random, case: &mut Case) {
    let high = random.pick(&[60, 63, 100, 126, 128, 1000]);
    for i in 0..case.pose_count() {
        if random.one_in(2) {
            let at = i * 12 + 9 + random.below(3);
            case.poses[at] = random.scaled(high - 8, high);
        }
    }
}

fn wild_rotations(random: &mut Random, case: &mut Case) {
    let high = random.pick(&[3, 30, 62, 64, 127, 500]);
    for i in 0..case.pose_count() {
        if random.one_in(3) {
            let at = i * 12 + random.below(9);
            case.poses[at] = random.scaled(-high, high);
        }
    }
}

fn wild_weights(random: &mut Random, case: &mut Case) {
    let high = random.pick(&[30, 55, 62, 64, 66, 127]);
    for weight in case.edges.iter_mut().skip(7).step_by(8) {
        if random.one_in(2) {
            *weight = random.scaled(high - 6, high) as f32;
        }
    }
}

fn wild_measurements(random: &mut Random, case: &mut Case) {
    for edge in case.edges.chunks_exact_mut(8) {
        let before = [edge[0], edge[1], edge[2], edge[3]];
        match random.below(5) {
            0 => edge[4 + random.below(3)] = random.scaled(20, 127) as f32,
            1 => edge[random.below(4)] = random.scaled(-20, 63) as f32,
            2 => edge[..4].fill(0.0),
            3 => edge[3] = 3e38,
            _ => {}
        }
        if !transform_is_finite(edge) {
            edge[..4].copy_from_slice(&before);
        }
    }
}

fn transform_is_finite(edge: &[f32]) -> bool {
    let m = transform(edge).r.matrix();
    (0..3).all(|i| {
        let c = m.col(i);
        c.x.is_finite() && c.y.is_finite() && c.z.is_finite()
    })
}

/// Measurements that are met exactly, with huge weights: the cost is small and the assembly overflows.
fn exact_and_heavy(random: &mut Random, case: &mut Case) {
    let heavy = random.scaled(58, 66) as f32;
    for (ends, edge) in case
        .ends
        .chunks_exact(2)
        .zip(case.edges.chunks_exact_mut(8))
    {
        let at = |end: u32| se3(&case.poses[end as usize * 12..]);
        edge[..7].copy_from_slice(&transform_numbers(&(at(ends[1]) * at(ends[0]).inverse())));
        edge[7] = if random.one_in(2) { heavy } else { 1.0 };
    }
}

/// Weights against which no damping counts, and one fixed pose more, joined by an edge so light
/// that its squares vanish: row 26 lets it pass, and the system stays singular. Where the squares
/// barely count, rounding decides whether it is, and 22 may come late.
fn loose_and_heavy(random: &mut Random, case: &mut Case) {
    let heavy = random.scaled(44, 54) as f32;
    for weight in case.edges.iter_mut().skip(7).step_by(8) {
        *weight = heavy;
    }
    let (fixed, origin) = (case.pose_count(), Place::origin());
    case.poses.extend(origin.numbers());
    case.fixed = vec![fixed as u32];
    let named = case.ends[random.below(case.ends.len())] as usize;
    let ends = random.pick(&[(named, fixed), (fixed, named)]);
    let light = match random.below(3) {
        0 => random.pick(&[1e-30, -1e-27, f32::MIN_POSITIVE, f32::from_bits(1)]),
        _ => heavy / random.pick(&[700.0, 1000.0, 1300.0, 2000.0]),
    };
    push_edge(case, ends.0, ends.1, origin.measured(), light);
}

/// One long heavy edge pulls a star of poses away: the first step is taken, and the assembly after it overflows.
fn pulled_star(random: &mut Random, case: &mut Case) {
    let poses = random.between(4, 8);
    let length = random.scaled(2, 8).abs();
    let weight = random.scaled(61, 63).abs() / length;
    let origin = Place::origin().numbers();
    *case = blank(case.gravity);
    case.poses = origin.repeat(poses);
    let pull = Place::turned([0.0; 3], [length, 0.0, 0.0]);
    push_edge(case, 0, 1, pull.measured(), weight as f32);
    for arm in 2..poses {
        push_edge(case, 1, arm, Place::origin().measured(), weight as f32);
    }
}
