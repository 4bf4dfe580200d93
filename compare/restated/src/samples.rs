//! Document 01's sample joins that are whole runs, with the numbers that the page gives, amended by
//! document 02; and document 02's two passes of which one has no fixed pose.

use crate::case::Case;
use crate::graphs::{calm_ring, push_edge};
use crate::random::Random;

/// What the page says of a sample, or what follows from it; none where it is silent.
#[derive(Clone, Debug, Default)]
pub struct Said {
    pub number: Option<u32>,
    pub place: Option<u32>,
    pub first_cost: Option<f32>,
    pub iterations: Option<u32>,
    pub stop: Option<u32>,
}

/// A pose at (x,0,0), with no turn.
pub fn ahead(x: f64) -> [f64; 12] {
    [1.0, 0.0, 0.0, 0.0, 1.0, 0.0, 0.0, 0.0, 1.0, x, 0.0, 0.0]
}

/// Pose 0 fixed at identity, pose 1 at (1,0,0), no turn anywhere, one edge from 0 to 1.
pub fn two_poses(measured: f32, weight: f32) -> Case {
    let mut case = Case {
        gravity: None,
        poses: [ahead(0.0), ahead(1.0)].concat(),
        ends: vec![0, 1],
        edges: vec![0.0, 0.0, 0.0, 1.0, measured, 0.0, 0.0, weight],
        fixed: vec![0],
        limit: 30,
        cost_tolerance: 1e-6,
        gradient_tolerance: 1e-6,
        damping: 1e-3,
        work32: 0,
        work64: 0,
        out: 0,
    };
    case.fit();
    case
}

/// Two rings of so many views each, pose 0 fixed; where a weight is given, an edge from the first
/// to the second.
pub fn two_rings(views: usize, bridge: Option<f32>) -> Case {
    let ring = |salt: u64| calm_ring(&mut Random::of_case(26, salt, views as u64), views, 0);
    let (mut case, second) = (ring(0), ring(1));
    case.poses.extend(second.poses);
    let behind = |end: &u32| *end + views as u32;
    case.ends.extend(second.ends.iter().map(behind));
    case.edges.extend(second.edges);
    if let Some(weight) = bridge {
        let measured = [0.0, 0.0, 0.0, 1.0, 1.0, 0.0, 0.0];
        push_edge(&mut case, views - 1, views, measured, weight);
    }
    case.fit();
    case
}

fn costs(first_cost: f32) -> Said {
    Said {
        number: Some(0),
        first_cost: Some(first_cost),
        ..Said::default()
    }
}

fn number(number: u32) -> Said {
    Said {
        number: Some(number),
        ..Said::default()
    }
}

fn loose(place: u32) -> Said {
    Said {
        place: Some(place),
        ..number(26)
    }
}

/// The sample with one thing changed.
fn but(case: &Case, change: impl Fn(&mut Case)) -> Case {
    let mut changed = case.clone();
    change(&mut changed);
    changed
}

pub fn samples() -> Vec<(Case, Said)> {
    let plain = two_poses(1.0, 1.0);
    let mut list = vec![
        (
            plain.clone(),
            Said {
                iterations: Some(0),
                stop: Some(2),
                ..costs(0.0)
            },
        ),
        (two_poses(2.0, 1.0), costs(1.0)),
        (two_poses(2.0, 0.5), costs(0.25)),
        (but(&plain, |c| c.limit = 1000), number(0)),
        (but(&plain, |c| c.limit = 1001), number(16)),
        (but(&plain, |c| c.work32 -= 1), number(14)),
        (but(&plain, |c| c.work64 -= 1), number(14)),
    ];
    list.extend(zero_weights());
    list.extend(far_poses(&plain));
    list.extend([3, 25].into_iter().flat_map(rings));
    list.extend(with_gravity(&list));
    list
}

/// Zero weights with zero gradient tolerance: 26; until Wish 6 it was Step after 0 iterations,
/// which the least weight still gives.
fn zero_weights() -> Vec<(Case, Said)> {
    let weighing = |weight: f32| but(&two_poses(2.0, weight), |c| c.gradient_tolerance = 0.0);
    let step = Said {
        iterations: Some(0),
        stop: Some(3),
        ..costs(0.0)
    };
    let nothing_fixed = but(&weighing(0.0), |c| {
        c.fixed.clear();
        c.fit();
    });
    vec![
        (weighing(0.0), loose(1)),
        (weighing(-0.0), loose(1)),
        (nothing_fixed, loose(0)),
        (weighing(f32::from_bits(1)), step),
    ]
}

/// Two rings, the second without a fixed pose, and a bridge of every kind.
fn rings(views: usize) -> Vec<(Case, Said)> {
    let place = views as u32;
    vec![
        (two_rings(views, None), loose(place)),
        (two_rings(views, Some(0.0)), loose(place)),
        (two_rings(views, Some(-0.0)), loose(place)),
        (two_rings(views, Some(1.0)), number(0)),
    ]
}

/// A pose at 1e300: refused 20 if an active edge names it, harmless otherwise.
fn far_poses(plain: &Case) -> Vec<(Case, Said)> {
    let named = but(plain, |c| c.poses[21] = 1e300);
    let idle = but(plain, |c| {
        c.poses.extend_from_within(12..24);
        c.poses[33] = 1e300;
        c.fit();
    });
    let fixed_to_fixed = but(&idle, |c| {
        c.ends.extend([0, 2]);
        c.edges.extend_from_within(0..8);
        c.fixed.push(2);
    });
    vec![
        (named, number(20)),
        (idle, costs(0.0)),
        (fixed_to_fixed, costs(0.0)),
    ]
}

/// The same as gravity runs; short work stays one short.
fn with_gravity(list: &[(Case, Said)]) -> Vec<(Case, Said)> {
    let turn = |(case, said): &(Case, Said)| {
        let short = (case.need32() - case.work32, case.need64() - case.work64);
        let case = but(case, |c| {
            c.gravity = Some([0.0, 0.0, -9.81]);
            c.fit();
            c.work32 -= short.0;
            c.work64 -= short.1;
        });
        (case, said.clone())
    };
    list.iter().map(turn).collect()
}

#[cfg(test)]
mod tests {
    use super::*;
    use crate::expect::expected;

    #[test]
    fn the_original_gives_what_the_documents_say() {
        for (i, (case, said)) in samples().iter().enumerate() {
            let e = expected(case);
            assert!(e.doubts.is_empty(), "{i}: {:?}", e.doubts);
            let costs = e.costs.unwrap_or([f32::NAN; 2]);
            assert_eq!(said.number.unwrap_or(e.answer[0]), e.answer[0], "{i}");
            assert_eq!(said.place.unwrap_or(e.answer[1]), e.answer[1], "{i}");
            assert_eq!(said.iterations.unwrap_or(e.answer[2]), e.answer[2], "{i}");
            assert_eq!(said.stop.unwrap_or(e.answer[7]), e.answer[7], "{i}");
            if let Some(first) = said.first_cost {
                assert_eq!(first.to_bits(), costs[0].to_bits(), "{i}");
            }
        }
    }
}
