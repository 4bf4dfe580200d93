//! Cases at the edges of document 01's limits: the largest that passes and the next that is refused.

use crate::case::Case;
use crate::graphs::calm_ring;
use crate::pieces::full_chain;
use crate::random::Random;
use crate::samples::two_poses;

/// A ring with `free` free poses and a short limit.
fn ring_with(random: &mut Random, free: usize, gravity: bool) -> Case {
    let mut case = calm_ring(random, free + 1, 2);
    case.gravity = gravity.then_some([0.0, 0.0, -9.81]);
    case.limit = 2;
    case.fit();
    case
}

/// The two-pose graph with its edge given `count` times.
fn repeated_edge(count: usize) -> Case {
    let mut case = two_poses(1.5, 1.0);
    case.ends = case.ends.repeat(count);
    case.edges = case.edges.repeat(count);
    case
}

/// The two-pose graph with idle poses up to `count`.
fn idle_poses(count: usize) -> Case {
    let mut case = two_poses(1.5, 1.0);
    let second: Vec<f64> = case.poses[12..24].to_vec();
    case.poses.extend(second.repeat(count - 2));
    case.fit();
    case
}

fn repeated_fixed(count: usize) -> Case {
    let mut case = two_poses(1.5, 1.0);
    case.fixed = vec![0; count];
    case
}

/// All of them, with the refusal each must get.
pub fn limits(random: &mut Random) -> Vec<(Case, u32)> {
    let mut list = Vec::new();
    for gravity in [false, true] {
        list.push((ring_with(random, 64, gravity), 0));
        list.push((ring_with(random, 65, gravity), 13));
    }
    list.extend([(repeated_edge(1024), 0), (repeated_edge(1025), 3)]);
    list.extend([(idle_poses(256), 0), (idle_poses(257), 3)]);
    list.extend([(repeated_fixed(256), 0), (repeated_fixed(257), 3)]);
    list.extend([(full_chain(random, 1.0), 0), (full_chain(random, -0.0), 26)]);
    list.extend(work_limits(random));
    list
}

fn work_limits(random: &mut Random) -> Vec<(Case, u32)> {
    let exact = ring_with(random, 9, false);
    let mut short32 = exact.clone();
    short32.work32 -= 1;
    let mut short64 = exact.clone();
    short64.work64 -= 1;
    let mut larger = exact.clone();
    larger.work32 += 1000;
    larger.work64 += 1000;
    vec![(exact, 0), (short32, 14), (short64, 14), (larger, 0)]
}

#[cfg(test)]
mod tests {
    use super::*;
    use crate::table::refused;

    #[test]
    fn each_limit_is_where_document_01_puts_it() {
        for (i, (case, number)) in limits(&mut Random::of_case(1, 1, 1)).iter().enumerate() {
            assert_eq!(refused(case).map_or(0, |r| r.number), *number, "{i}");
        }
    }
}
