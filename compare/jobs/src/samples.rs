//! The sample jobs by name: an evening, the two-pose graph and what may be wrong with it, jobs at
//! the limits of the small program, and jobs whose join may not be printed.

use restated::case::Case;
use restated::graphs::{blank, calm_ring, push_edge};
use restated::jobs::{records, write, Job};
use restated::random::Random;
use restated::samples::{ahead, two_poses};

use crate::evening::evening;

/// The generator of the ring with that number.
fn random(number: u64) -> Random {
    Random::of_case(16, 1, number)
}

pub fn samples() -> Vec<(&'static str, Vec<u8>)> {
    let two = Job::of(&two_poses(1.0, 1.0));
    let bytes = write(&two);
    vec![
        ("evening", job(&evening())),
        ("two_poses", bytes.clone()),
        ("empty", Vec::new()),
        ("cut", bytes[..MIDDLE_OF_POSE_1].to_vec()),
        ("byte_after_end", [bytes.as_slice(), &[0]].concat()),
        ("no_settings", records(&two)[1..].concat()),
        ("table_refuses", job(&edge_to_itself())),
        ("one_pose_too_many", job(&calm_ring(&mut random(0), 17, 0))),
        ("not_converged", job(&out_of_tries())),
        ("full_small", job(&full_small())),
        ("last_edge_worse", job(&last_edge_worse())),
        ("no_last_residual", job(&no_last_residual())),
    ]
}

/// Of the two-pose job: settings to 20, pose 0 to 120, pose 1 to 220.
const MIDDLE_OF_POSE_1: usize = 170;

fn job(case: &Case) -> Vec<u8> {
    write(&Job::of(case))
}

/// Views at (x,0,0) with no turn, the first of them fixed, and no edges yet.
fn along_a_line(places: &[f64]) -> Case {
    let mut case = blank(None);
    case.poses = places.iter().flat_map(|x| ahead(*x)).collect();
    case
}

/// An edge measured (x,0,0), with no turn.
fn push_ahead(case: &mut Case, a: usize, b: usize, x: f32, weight: f32) {
    push_edge(case, a, b, [0.0, 0.0, 0.0, 1.0, x, 0.0, 0.0], weight);
}

/// The two-pose graph with a second edge, from pose 1 to pose 1.
fn edge_to_itself() -> Case {
    let mut case = two_poses(1.0, 1.0);
    push_ahead(&mut case, 1, 1, 0.0, 1.0);
    case
}

/// Six views that one try does not bring to rest, and no more than one try.
fn out_of_tries() -> Case {
    let mut case = calm_ring(&mut random(1), 6, 2);
    case.limit = 1;
    case.cost_tolerance = 0.0;
    case.gradient_tolerance = 0.0;
    case
}

/// 16 poses, 64 edges and 16 fixed entries, which name two poses eight times each.
fn full_small() -> Case {
    let mut case = calm_ring(&mut random(2), 16, 48);
    case.fixed = [0, 8].repeat(8);
    case
}

/// Four views that stand a quarter too far apart, as every edge knows but the last, a light one
/// that measured where they stand.
fn last_edge_worse() -> Case {
    let mut case = along_a_line(&[0.0, 1.25, 2.5, 3.75]);
    for a in 0..4 {
        for b in a + 1..4 {
            push_ahead(&mut case, a, b, (b - a) as f32, 1.0);
        }
    }
    push_ahead(&mut case, 0, 3, 3.75, 0.0625);
    case
}

/// The last edge joins two fixed poses, one of them so far away that the edge has no residual.
fn no_last_residual() -> Case {
    let mut case = along_a_line(&[0.0, 1e300, 1.25]);
    push_ahead(&mut case, 0, 2, 1.0, 1.0);
    push_ahead(&mut case, 0, 1, 1.0, 1.0);
    case.fixed.push(1);
    case
}
