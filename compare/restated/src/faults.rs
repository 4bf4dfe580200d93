//! Inputs with one fault or several, so that every row of the refusal table from 1 to 19, and 26,
//! is met, alone and before others.

use crate::case::Case;
use crate::graphs::{any_gravity, grid, ring};
use crate::random::Random;
use crate::table::ORDER;

/// A good graph with the fault of the row that the index leads to, and often further faults.
pub fn faulty(random: &mut Random, index: usize) -> Case {
    let row = ORDER[index % ORDER.len()];
    let gravity = (row == 1 || random.one_in(3)).then(|| any_gravity(random));
    let mut case = if random.one_in(2) {
        ring(random, gravity)
    } else {
        grid(random, gravity)
    };
    if row != 1 && random.one_in(3) {
        let first = random.pick(&ORDER);
        inject(random, &mut case, first);
    }
    inject(random, &mut case, row);
    if random.one_in(3) {
        let more = random.pick(&ORDER);
        inject(random, &mut case, more);
    }
    case
}

pub(crate) const NOT_FINITE32: [f32; 3] = [f32::NAN, f32::INFINITY, f32::NEG_INFINITY];
pub(crate) const NOT_FINITE64: [f64; 3] = [f64::NAN, f64::INFINITY, f64::NEG_INFINITY];

const IDENTITY: [f64; 12] = [1.0, 0.0, 0.0, 0.0, 1.0, 0.0, 0.0, 0.0, 1.0, 0.0, 0.0, 0.0];
/// An edge's numbers: no turn, one ahead, weight 1.
const AHEAD: [f32; 8] = [0.0, 0.0, 0.0, 1.0, 1.0, 0.0, 0.0, 1.0];

/// The next f32 above 1e10.
const ABOVE_LIMIT: f32 = f32::from_bits(0x501502FA);

pub(crate) fn inject(random: &mut Random, case: &mut Case, row: u32) {
    match row {
        1..=5 => inject_shape(random, case, row),
        6..=11 => inject_graph(random, case, row),
        12..=14 => inject_sizes(random, case, row),
        26 => inject_island(random, case),
        _ => inject_settings(random, case, row),
    }
}

fn inject_shape(random: &mut Random, case: &mut Case, row: u32) {
    match row {
        1 if case.gravity.is_some() => case.gravity = Some(bad_gravity(random)),
        2 => bad_length(random, case),
        3 => too_many(random, case),
        4 => {
            case.poses.clear();
            case.out = 0;
        }
        5 => {
            case.ends.clear();
            case.edges.clear();
        }
        _ => {}
    }
}

fn bad_gravity(random: &mut Random) -> [f64; 3] {
    let mut gravity = any_gravity(random);
    match random.below(4) {
        0 => gravity[random.below(3)] = random.pick(&NOT_FINITE64),
        1 => gravity = [0.0, -0.0, 0.0],
        2 => gravity = random.pick(&[[1e-9, 0.0, 0.0], [0.0, -9e-10, 0.0], [1e-200; 3]]),
        _ => gravity[random.below(3)] = 1e200,
    }
    gravity
}

fn bad_length(random: &mut Random, case: &mut Case) {
    match random.below(7) {
        0 => case.poses.push(0.0),
        1 => drop(case.poses.pop()),
        2 => case.ends.push(0),
        3 => case.edges.push(1.0),
        4 => drop(case.edges.pop()),
        5 => case.out += 1,
        _ => case.out = case.out.saturating_sub(1),
    }
}

fn too_many(random: &mut Random, case: &mut Case) {
    match random.below(3) {
        0 => {
            case.poses.resize(257 * 12, 0.5);
            case.out = case.poses.len();
        }
        1 => {
            let count = random.between(1025, 1030);
            case.ends = [0, 1].repeat(count);
            case.edges = AHEAD.repeat(count);
        }
        _ => case.fixed = vec![0; random.between(257, 300)],
    }
}

fn inject_graph(random: &mut Random, case: &mut Case, row: u32) {
    if row == 6 && !case.poses.is_empty() {
        let at = random.below(case.poses.len());
        case.poses[at] = random.pick(&NOT_FINITE64);
    }
    if row == 11 {
        let beyond = case.pose_count() as u32;
        case.fixed
            .push(random.pick(&[beyond, beyond + 1, u32::MAX]));
        let at = random.below(case.fixed.len());
        let last = case.fixed.len() - 1;
        case.fixed.swap(at, last);
    }
    if (7..=10).contains(&row) && case.edge_count() > 0 {
        let edge = random.below(case.edge_count());
        inject_edge(random, case, row, edge);
        if random.one_in(2) {
            let other = random.pick(&[7, 8, 9, 10]);
            inject_edge(random, case, other, edge);
        }
    }
}

fn inject_edge(random: &mut Random, case: &mut Case, row: u32, edge: usize) {
    let beyond = case.pose_count() as u32;
    let end = edge * 2 + random.below(2);
    match row {
        7 => case.ends[end] = random.pick(&[beyond, beyond + 1, u32::MAX]),
        8 => case.ends[edge * 2 + 1] = case.ends[edge * 2],
        9 if edge * 8 + 7 < case.edges.len() => {
            case.edges[edge * 8 + 7] = random.pick(&NOT_FINITE32);
        }
        10 if edge * 8 + 7 < case.edges.len() => inject_measured(random, case, edge),
        _ => {}
    }
}

fn inject_measured(random: &mut Random, case: &mut Case, edge: usize) {
    let at = edge * 8 + random.below(7);
    match random.below(3) {
        0 => case.edges[edge * 8 + random.below(3)] = random.pick(&[1e20, -2e19, 3e38]),
        1 => case.edges[edge * 8 + 4 + random.below(3)] = random.pick(&NOT_FINITE32),
        _ => case.edges[at] = random.pick(&NOT_FINITE32),
    }
}

fn inject_sizes(random: &mut Random, case: &mut Case, row: u32) {
    match row {
        12 => case.fixed = (0..case.pose_count() as u32).collect(),
        13 => many_free(random, case),
        _ => match random.below(4) {
            0 => case.work32 = case.need32().saturating_sub(1),
            1 => case.work64 = case.need64().saturating_sub(1),
            2 => case.work32 = 0,
            _ => case.work64 = 0,
        },
    }
}

/// More than 64 free poses: a star of them, work to suit.
fn many_free(random: &mut Random, case: &mut Case) {
    let count = random.between(66, 80) as u32;
    case.poses = IDENTITY.repeat(count as usize);
    case.ends = (1..count).flat_map(|i| [0, i]).collect();
    case.edges = AHEAD.repeat(count as usize - 1);
    case.fixed = vec![0];
    case.fit();
}

/// A free pose without a path to a fixed one; work that was short stays so.
fn inject_island(random: &mut Random, case: &mut Case) {
    match random.below(4) {
        0 => case.fixed.clear(),
        1 => cut_off(random, case),
        2 => cut_all(random, case),
        _ => add_island(random, case),
    }
}

/// All edges of one pose get weight 0.
fn cut_off(random: &mut Random, case: &mut Case) {
    let Some(pose) = case.ends.get(random.below(case.ends.len().max(1))).copied() else {
        return;
    };
    let zero = random.pick(&[0.0, -0.0]);
    let pairs = case
        .ends
        .chunks_exact(2)
        .zip(case.edges.chunks_exact_mut(8));
    for (ends, numbers) in pairs {
        if ends.contains(&pose) {
            numbers[7] = zero;
        }
    }
}

fn cut_all(random: &mut Random, case: &mut Case) {
    for numbers in case.edges.chunks_exact_mut(8) {
        numbers[7] = random.pick(&[0.0, -0.0]);
    }
}

/// Two poses more, joined to each other alone.
fn add_island(random: &mut Random, case: &mut Case) {
    let (next, need) = (case.pose_count() as u32, case.need32());
    case.poses.extend(IDENTITY.repeat(2));
    case.ends
        .extend(random.pick(&[[next, next + 1], [next + 1, next]]));
    case.edges.extend(AHEAD);
    case.out += 24;
    case.work64 += 48;
    case.work32 += case.need32() - need;
}

fn inject_settings(random: &mut Random, case: &mut Case, row: u32) {
    let bad_tolerance = [f32::NAN, f32::INFINITY, f32::NEG_INFINITY, -1.0, -1e-45];
    match row {
        15 => case.limit = 0,
        16 => case.limit = random.pick(&[1001, 1002, 65536, u32::MAX]),
        17 => case.cost_tolerance = random.pick(&bad_tolerance),
        18 => case.gradient_tolerance = random.pick(&bad_tolerance),
        _ => {
            let bad = [
                f32::NAN,
                f32::INFINITY,
                0.0,
                -0.0,
                -1.0,
                ABOVE_LIMIT,
                f32::MAX,
            ];
            case.damping = random.pick(&bad);
        }
    }
}

#[cfg(test)]
mod tests {
    use super::*;
    use crate::expect::expected;

    #[test]
    fn every_row_is_met_and_the_original_agrees() {
        let mut met = [0; 27];
        for index in 0..400 {
            let mut random = Random::of_case(1, 5, index as u64);
            let case = faulty(&mut random, index);
            let e = expected(&case);
            assert!(e.doubts.is_empty(), "{index}: {:?} {case:?}", e.doubts);
            met[e.answer[0] as usize] += 1;
        }
        println!("{met:?}");
        let all = ORDER.iter().all(|row| met[*row as usize] > 0);
        assert!(all, "{met:?}");
    }

    #[test]
    fn the_damping_above_the_limit_is_the_next_number() {
        assert_eq!(1e10f32.to_bits() + 1, ABOVE_LIMIT.to_bits());
    }
}
