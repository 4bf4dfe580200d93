//! May it be printed? Document 02's measures and tests (Wish 2), over any edges, poses before and poses
//! after; the residual of an edge is the original's own.

use original_hooked as rust;

use crate::case::{pose, Case, Owned};

/// Gravity is kept where no cosine lies below this.
pub const LEAST_COSINE: f64 = 0.999999995;

/// The same number or the next one to it: where an angle's rounding may decide otherwise than the cosine's.
pub fn at_the_bound(cosine: f64) -> bool {
    cosine > 0.0 && cosine.to_bits().abs_diff(LEAST_COSINE.to_bits()) <= 1
}

/// Why a run may not be printed.
#[derive(Copy, Clone, Debug, PartialEq)]
pub enum Reason {
    NotConverged,
    Tipped,
    CostNotLower,
    LastWorse,
}

#[derive(Copy, Clone, Debug)]
pub struct Verdict {
    pub converged: bool,
    /// First cost, last cost, the last edge's residual before and after.
    pub measures: [f64; 4],
    /// The smallest cosine of all poses, NaN passed over; none without gravity, or where all are NaN.
    pub cosine: Option<f64>,
}

/// The sum of a residual's six squares; none where the edge has no residual.
fn squares(owned: &Owned, poses: &[f64], edge: usize) -> Option<f64> {
    let edge = &owned.edges[edge];
    let at = |end: usize| poses.get(12 * end..12 * end + 12).map(pose);
    let (a, b) = (at(edge.pose_a)?, at(edge.pose_b)?);
    let residual = rust::residual(&a, &b, &edge.t_ab_meas, edge.weight).ok()?;
    let square = |x: f32| f64::from(x) * f64::from(x);
    Some(residual.into_iter().fold(0.0, |sum, x| sum + square(x)))
}

/// Half the sum over all edges that have a residual, in order, from +0.
fn cost(owned: &Owned, poses: &[f64]) -> f64 {
    let mut sum = 0.0;
    for edge in 0..owned.edges.len() {
        sum += squares(owned, poses, edge).unwrap_or(0.0);
    }
    0.5 * sum
}

/// The last of all edges: the root of its squares' sum; none where it has no residual, or there are no edges.
pub fn last_residual(case: &Case, poses: &[f64]) -> Option<f64> {
    let owned = case.owned();
    let last = owned.edges.len().checked_sub(1)?;
    squares(&owned, poses, last).map(f64::sqrt)
}

fn unit(v: [f64; 3]) -> [f64; 3] {
    let length = dot(v, v).sqrt();
    v.map(|x| x / length)
}

fn dot(a: [f64; 3], b: [f64; 3]) -> f64 {
    (a[0] * b[0] + a[1] * b[1]) + a[2] * b[2]
}

/// The cosine between gravity as the camera sees it before and after.
fn cosine(gravity: [f64; 3], before: &[f64], after: &[f64]) -> f64 {
    let down = unit(gravity);
    let seen = |p: &[f64]| unit([0, 1, 2].map(|row| dot([p[row], p[row + 3], p[row + 6]], down)));
    dot(seen(before), seen(after))
}

fn smallest_cosine(gravity: [f64; 3], before: &[f64], after: &[f64]) -> Option<f64> {
    let pairs = before.chunks_exact(12).zip(after.chunks_exact(12));
    pairs
        .map(|(before, after)| cosine(gravity, before, after))
        .filter(|cosine| !cosine.is_nan())
        .min_by(f64::total_cmp)
}

/// What a finished run of the case comes to; none where the last edge has no residual.
pub fn judged(case: &Case, converged: bool, after: &[f64]) -> Option<Verdict> {
    let owned = case.owned();
    let before = &case.poses;
    Some(Verdict {
        converged,
        measures: [
            cost(&owned, before),
            cost(&owned, after),
            last_residual(case, before)?,
            last_residual(case, after)?,
        ],
        cosine: case
            .gravity
            .and_then(|gravity| smallest_cosine(gravity, before, after)),
    })
}

impl Verdict {
    pub fn gravity_kept(&self) -> bool {
        self.cosine.is_none_or(|cosine| cosine >= LEAST_COSINE)
    }

    /// The tests that fail, in the order in which they are told. That measures are finite is no test of
    /// its own: a residual's squares and their sums are far from f64's end.
    pub fn failing(&self) -> Vec<Reason> {
        let [first, last, before, after] = self.measures;
        let tests = [
            (self.converged, Reason::NotConverged),
            (self.gravity_kept(), Reason::Tipped),
            (last < first, Reason::CostNotLower),
            (after <= before, Reason::LastWorse),
        ];
        let failing = tests.into_iter().filter(|(holds, _)| !holds);
        failing.map(|(_, reason)| reason).collect()
    }

    pub fn usable(&self) -> bool {
        self.measures.iter().all(|x| x.is_finite()) && self.failing().is_empty()
    }
}

#[cfg(test)]
mod tests {
    use super::*;
    use crate::samples::two_poses;
    use crate::scan_inputs::along_a_line;

    fn verdict(converged: bool, measures: [f64; 4]) -> Verdict {
        Verdict {
            converged,
            measures,
            cosine: None,
        }
    }

    /// The two-pose sample, pose 1 moved to x.
    fn moved_to(x: f64) -> Vec<f64> {
        let mut poses = two_poses(2.0, 1.0).poses;
        poses[21] = x;
        poses
    }

    #[test]
    fn the_two_pose_sample_by_hand() {
        let verdict = judged(&two_poses(2.0, 1.0), true, &moved_to(1.5)).expect("it has one");
        assert_eq!(verdict.measures, [0.5, 0.125, 1.0, 0.5]);
        assert!(verdict.usable());
        let weighed = judged(&two_poses(2.0, 0.5), true, &moved_to(5.0)).expect("it has one");
        assert_eq!(weighed.measures, [0.125, 1.125, 0.5, 1.5]);
        assert_eq!(weighed.failing(), [Reason::CostNotLower, Reason::LastWorse]);
    }

    /// Three views one ahead of each other, and a loop that says 0.25: misfits 0, 0 and 2.25, halved.
    #[test]
    fn the_cost_goes_over_all_edges_and_the_last_is_the_loop() {
        let case = along_a_line(&[10, 20, 30], &[(10, 30)]).graph();
        let verdict = judged(&case, true, &case.poses).expect("it has one");
        let misfit = 0.5 * (2.0 - 0.25);
        assert_eq!(
            verdict.measures,
            [0.5 * misfit * misfit, 0.5 * misfit * misfit, misfit, misfit]
        );
        assert_eq!(verdict.failing(), [Reason::CostNotLower]);
    }

    #[test]
    fn the_cost_must_fall_and_the_last_edge_may_stay() {
        assert!(verdict(true, [2.0, 1.0, 3.0, 3.0]).usable());
        let equal = verdict(true, [2.0, 2.0, 3.0, 1.0]);
        assert_eq!(equal.failing(), [Reason::CostNotLower]);
        let worse = verdict(true, [2.0, 1.0, 3.0, 3.5]);
        assert_eq!(worse.failing(), [Reason::LastWorse]);
        let unfinished = verdict(false, [2.0, 1.0, 3.0, 1.0]);
        assert_eq!(unfinished.failing(), [Reason::NotConverged]);
        assert!(!verdict(true, [f64::INFINITY, 1.0, 3.0, 1.0]).usable());
    }

    #[test]
    fn an_edge_without_a_residual_is_left_out_of_the_cost() {
        let mut case = along_a_line(&[10, 20, 30], &[(10, 30)]).graph();
        case.poses[33] = f64::MAX;
        assert!(judged(&case, true, &case.poses).is_none());
        let first_alone = [0, 1].map(|_| cost(&case.owned(), &case.poses));
        assert_eq!(first_alone, [0.0, 0.0]);
    }

    /// Gravity along z, the second pose tilted about x by so much.
    fn tilted(angle: f64) -> Verdict {
        let mut case = two_poses(2.0, 1.0);
        case.gravity = Some([0.0, 0.0, -9.81]);
        let mut after = moved_to(1.5);
        let (s, c) = angle.sin_cos();
        after[12..21].copy_from_slice(&[1.0, 0.0, 0.0, 0.0, c, s, 0.0, -s, c]);
        judged(&case, true, &after).expect("it has one")
    }

    #[test]
    fn gravity_may_tip_by_a_ten_thousandth() {
        for (angle, kept) in [
            (0.0, true),
            (0.9999e-4, true),
            (1.0001e-4, false),
            (2.0, false),
        ] {
            let verdict = tilted(angle);
            assert_eq!(verdict.gravity_kept(), kept, "{angle}");
            assert_eq!(verdict.failing().contains(&Reason::Tipped), !kept);
        }
    }

    #[test]
    fn a_cosine_that_is_no_number_passes() {
        let mut case = two_poses(2.0, 1.0);
        case.gravity = Some([0.0, 0.0, -9.81]);
        let mut after = moved_to(1.5);
        after[18..21].fill(0.0);
        let verdict = judged(&case, true, &after).expect("it has one");
        assert_eq!(verdict.cosine, Some(1.0));
        assert!(verdict.gravity_kept());
    }

    /// Of two thousand numbers about the bound; the angle is as the machine's acos rounds it.
    #[test]
    fn cosine_and_angle_agree_but_for_the_bound_itself() {
        for by in -1000..1000 {
            let cosine = f64::from_bits(LEAST_COSINE.to_bits().wrapping_add_signed(by));
            let agree = (cosine.acos() <= 1e-4) == (cosine >= LEAST_COSINE);
            assert!(agree || at_the_bound(cosine), "{cosine:?}");
        }
    }
}
