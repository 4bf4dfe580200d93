//! The graphs that are timed: rings with loop edges, on either manifold, and three at document 01's limits.

use restated::case::Case;
use restated::graphs::calm_ring;
use restated::places::{ring_places, Place};
use restated::random::Random;

/// Pose 0 fixed, 49 free poses, n = 294.
pub fn ring_of_fifty() -> Case {
    calm_ring(&mut Random::of_case(50, 0, 0), 50, 6)
}

/// Pose 0 fixed, 64 free poses, n = 384: a ring and loop edges up to so many in all, of which the first join the
/// same poses however many there are.
pub fn ring_of_sixty_five(edges: usize) -> Case {
    calm_ring(&mut Random::of_case(1000, 0, 0), 65, edges - 65)
}

/// The graph as it is, with DOF 6, and with gravity, DOF 4.
pub fn both_manifolds(case: Case) -> [Case; 2] {
    let mut with_gravity = case.clone();
    with_gravity.gravity = Some([0.0, 0.0, -9.81]);
    with_gravity.fit();
    [case, with_gravity]
}

pub const POSES: usize = 256;
pub const FREE: usize = 64;
pub const EDGES: usize = 1024;
const FIXED: usize = POSES - FREE;

type Pair = (usize, usize);

/// The free poses are joined one after the other, the last to a fixed one: each renaming of row 26's search is of all
/// that were joined before, and no order has more renamings or larger ones.
pub fn worst_order() -> Case {
    at_the_limits(chain())
}

/// The same edges, the joining ones first and from the fixed pose on: each renaming is of one pose.
pub fn best_order() -> Case {
    let (joining, others): (Vec<_>, Vec<_>) = chain().into_iter().partition(|(_, joins)| *joins);
    at_the_limits(joining.into_iter().rev().chain(others))
}

/// Each free pose has one edge, to a fixed pose, and all other edges are between fixed ones: assembly has the least to
/// do, the search as much.
pub fn bystanders() -> Case {
    let tie = |i| (free(i), fixed(i));
    let other = |random: &mut Random, _| two_of(random, FIXED, fixed);
    at_the_limits(spread(tie, other))
}

/// Every fourth pose is free.
fn free(i: usize) -> usize {
    4 * i
}

/// The others are fixed.
fn fixed(i: usize) -> usize {
    i + i / 3 + 1
}

/// A chain of free poses, its end tied to a fixed one, and edges between free poses that it has joined before.
fn chain() -> Vec<(Pair, bool)> {
    let joining = |i| match i + 1 {
        FREE => (free(i), fixed(0)),
        next => (free(i), free(next)),
    };
    spread(joining, |random, joined| {
        two_of(random, FREE.min(joined + 1), free)
    })
}

/// Two of the first `n` poses of a kind.
fn two_of(random: &mut Random, n: usize, pose: fn(usize) -> usize) -> Pair {
    let a = random.below(n);
    let b = (a + 1 + random.below(n - 1)) % n;
    (pose(a), pose(b))
}

/// Edges, each with whether it joins: the joining ones in order, the first at once and the others at random places, so
/// that a processor can't foresee them. Another edge is told how many have joined.
fn spread(joining: fn(usize) -> Pair, other: fn(&mut Random, usize) -> Pair) -> Vec<(Pair, bool)> {
    let mut random = Random::of_case(1024, 0, 0);
    let mut joined = 0;
    let edge = |left: usize| {
        if joined == 0 || random.below(left) < FREE - joined {
            joined += 1;
            return (joining(joined - 1), true);
        }
        (other(&mut random, joined), false)
    };
    (1..=EDGES).rev().map(edge).collect()
}

/// Poses along a ring, all but the free ones fixed, and these edges in this order, all weights 1.
fn at_the_limits(edges: impl IntoIterator<Item = (Pair, bool)>) -> Case {
    let mut random = Random::of_case(1024, 1, 0);
    let places = ring_places(&mut random, POSES);
    let mut strayed = |place: Place, by: f64| {
        let stray = Place::turned(random.span3(by), random.span3(by));
        place.after(stray)
    };
    let poses = places.iter().map(|place| strayed(*place, 0.05).numbers());
    let mut case = Case {
        poses: poses.collect::<Vec<_>>().concat(),
        ends: Vec::new(),
        edges: Vec::new(),
        fixed: (0..FIXED).map(|i| fixed(i) as u32).collect(),
        ..ring_of_fifty()
    };
    for ((a, b), _) in edges {
        let between = places[b].after(places[a].inverse());
        case.ends.extend([a as u32, b as u32]);
        case.edges.extend(strayed(between, 0.01).measured());
        case.edges.push(1.0);
    }
    case.fit();
    case
}

#[cfg(test)]
mod tests {
    use super::*;

    #[test]
    fn ring_has_its_edges_which_begin_as_those_of_a_larger_one_and_64_free_poses() {
        let largest = ring_of_sixty_five(1000);
        for edges in [65, 125, 1000] {
            let case = ring_of_sixty_five(edges);
            assert_eq!(case.edge_count(), edges);
            let unknowns = both_manifolds(case.clone()).map(|case| case.unknowns());
            assert_eq!(unknowns, [384, 256]);
            let pairs = case.ends.chunks_exact(2).zip(largest.ends.chunks_exact(2));
            for (ends, others) in pairs {
                assert!(ends == others || ends == [others[1], others[0]]);
            }
        }
    }
}
