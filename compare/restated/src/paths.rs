//! Document 02's row 26, a free pose without a path to a fixed one, by a search of its own: breadth
//! first outward from the fixed poses, over lists of neighbours that edges of non-zero weight make,
//! in either direction.

use std::collections::VecDeque;

use crate::case::Case;

/// The smallest free pose that the search does not come to, of a graph that passed rows 1 to 11.
pub fn loose_pose(c: &Case) -> Option<usize> {
    let reached = reached(c);
    (0..c.pose_count()).find(|pose| c.is_free(*pose) && !reached[*pose])
}

fn reached(c: &Case) -> Vec<bool> {
    let neighbours = neighbours(c);
    let mut reached = vec![false; c.pose_count()];
    let mut next: VecDeque<usize> = c.fixed.iter().map(|pose| *pose as usize).collect();
    while let Some(pose) = next.pop_front() {
        if !reached[pose] {
            reached[pose] = true;
            next.extend(&neighbours[pose]);
        }
    }
    reached
}

/// For each pose those at the other ends of its edges; an edge of weight 0 or −0 joins nothing.
fn neighbours(c: &Case) -> Vec<Vec<usize>> {
    let mut lists = vec![Vec::new(); c.pose_count()];
    for (ends, numbers) in c.ends.chunks_exact(2).zip(c.edges.chunks_exact(8)) {
        let (a, b) = (ends[0] as usize, ends[1] as usize);
        if numbers[7] != 0.0 {
            lists[a].push(b);
            lists[b].push(a);
        }
    }
    lists
}

#[cfg(test)]
mod tests {
    use super::loose_pose;
    use crate::case::Case;
    use crate::graphs::push_edge;
    use crate::pieces::islands;
    use crate::random::Random;
    use crate::samples::{two_poses, two_rings};
    use crate::table::{refused, refused_graph};

    /// Number and place of the table's refusal; (0, 0) where it passes.
    fn told(case: &Case) -> (u32, u32) {
        refused(case).map_or((0, 0), |refusal| (refusal.number, refusal.place))
    }

    fn joined(case: &mut Case, a: usize, b: usize, weight: f32) {
        push_edge(case, a, b, [0.0, 0.0, 0.0, 1.0, 1.0, 0.0, 0.0], weight);
        case.fit();
    }

    /// The two rings with the poses of the list fixed.
    fn rings_fixed(fixed: &[u32], bridge: Option<f32>) -> Case {
        let mut case = two_rings(25, bridge);
        case.fixed = fixed.to_vec();
        case.fit();
        case
    }

    #[test]
    fn a_ring_without_a_fixed_pose_is_told_by_its_smallest_pose() {
        assert_eq!(told(&two_rings(25, None)), (26, 25));
        assert_eq!(told(&rings_fixed(&[49], None)), (26, 0));
        assert_eq!(told(&rings_fixed(&[24, 25], None)), (0, 0));
    }

    #[test]
    fn a_bridge_counts_unless_its_weight_is_zero() {
        let least = f32::from_bits(1);
        for weight in [1.0, -1.0, 1e-30, f32::MIN_POSITIVE, least, -least] {
            assert_eq!(told(&two_rings(25, Some(weight))), (0, 0), "{weight:e}");
        }
        for weight in [0.0, -0.0] {
            assert_eq!(told(&two_rings(25, Some(weight))), (26, 25), "{weight:?}");
        }
    }

    #[test]
    fn a_bridge_counts_in_either_direction() {
        for (a, b) in [(3, 40), (40, 3)] {
            let mut case = two_rings(25, Some(0.0));
            joined(&mut case, a, b, 1.0);
            assert_eq!(told(&case), (0, 0));
        }
    }

    #[test]
    fn a_fixed_pose_helps_only_what_is_joined_to_it() {
        let mut idle = two_rings(25, None);
        idle.poses.extend_from_within(0..12);
        idle.fixed.push(50);
        idle.fit();
        assert_eq!(told(&idle), (26, 25));
        idle.fixed = vec![50];
        idle.fit();
        assert_eq!(told(&idle), (26, 0));
        joined(&mut idle, 50, 30, 1.0);
        assert_eq!(told(&idle), (26, 0));
        joined(&mut idle, 10, 50, 1.0);
        assert_eq!(told(&idle), (0, 0));
    }

    #[test]
    fn with_nothing_fixed_the_smallest_free_pose_is_told() {
        assert_eq!(told(&rings_fixed(&[], Some(1.0))), (26, 0));
        let mut case = two_poses(1.0, 1.0);
        case.poses.extend_from_within(12..24);
        case.ends = vec![2, 1];
        case.fixed.clear();
        case.fit();
        assert_eq!(told(&case), (26, 1));
    }

    /// A free pose hangs on a fixed one, to which another fixed one is joined; an edge of weight 0
    /// names a pose all the same.
    #[test]
    fn edges_between_fixed_poses_harm_nothing_and_named_poses_are_asked() {
        let mut case = two_poses(1.0, 1.0);
        case.poses = case.poses[..12].repeat(5);
        joined(&mut case, 1, 2, 1.0);
        joined(&mut case, 2, 3, 1.0);
        case.fixed = vec![1, 2];
        case.fit();
        assert_eq!(told(&case), (0, 0));
        joined(&mut case, 4, 3, -0.0);
        assert_eq!(told(&case), (26, 4));
        case.fixed.push(4);
        case.fit();
        assert_eq!(told(&case), (0, 0));
    }

    /// Which poses a path joins, from all pairs at once: by way of pose 0, of 0 and 1, and so on.
    fn all_joined(case: &Case) -> Vec<Vec<bool>> {
        let count = case.pose_count();
        let mut joined = vec![vec![false; count]; count];
        for (k, ends) in case.ends.chunks_exact(2).enumerate() {
            let (a, b) = (ends[0] as usize, ends[1] as usize);
            let counts = case.edges[k * 8 + 7].abs() > 0.0;
            joined[a][b] |= counts;
            joined[b][a] |= counts;
        }
        for middle in 0..count {
            let beyond = joined[middle].clone();
            for from in joined.iter_mut().filter(|from| from[middle]) {
                from.iter_mut().zip(&beyond).for_each(|(a, b)| *a |= *b);
            }
        }
        joined
    }

    #[test]
    fn the_search_finds_what_all_paths_say() {
        for index in 0..300 {
            let case = islands(&mut Random::of_case(8, 26, index), None);
            let joined = all_joined(&case);
            let reaches = |pose: usize| case.fixed.iter().any(|f| joined[pose][*f as usize]);
            let mut poses = 0..case.pose_count();
            let loose = poses.find(|pose| case.is_free(*pose) && !reaches(*pose));
            assert_eq!(loose_pose(&case), loose, "{index}: {case:?}");
        }
    }

    #[test]
    fn it_is_asked_after_13_and_before_14() {
        let mut case = rings_fixed(&[0], None);
        case.work32 -= 1;
        case.limit = 0;
        assert_eq!(told(&case), (26, 25));
        assert_eq!(refused_graph(&case).map(|r| r.number), Some(26));
        case.fixed.push(25);
        case.work32 = case.need32() - 1;
        assert_eq!(told(&case), (14, 0));
        case.fixed = (0..50).collect();
        assert_eq!(told(&case), (12, 0));
        let mut many = two_rings(33, None);
        assert_eq!(told(&many), (13, 0));
        many.fixed.push(32);
        many.fit();
        assert_eq!(told(&many), (26, 33));
    }
}
