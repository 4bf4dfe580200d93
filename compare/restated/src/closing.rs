//! The whole answer that a scan must get: rows 33 and 34, then the run's answer on the built graph, then the
//! verdict; and how the original's own optimize_pose_graph stands beside it, each difference known by a test.

use kornia_3d::pose::Pose3d;
use original::{
    optimize_pose_graph, Frame, InertialPgoContext, Keyframe, Map, PgoConfig, PgoError, PgoResult,
    VerifiedLoopEdge,
};

use crate::case::{pose, transform_numbers, vector, Case};
use crate::decide::refusal_answer;
use crate::expect::{expected, flat, row_of};
use crate::run::first_bad;
use crate::samples::ahead;
use crate::scan::Scan;
use crate::table::{MAX_EDGES, MAX_FREE, MAX_LIMIT, MAX_POSES, ORDER, PORTS_OWN};
use crate::verdict::{at_the_bound, judged, last_residual, Reason, Verdict};
use crate::{all_same32, all_same64};

pub struct Closing {
    /// The run's eight numbers, then usable.
    pub answer: [u32; 9],
    /// First and last cost of the run; none where refused.
    pub costs: Option<[f32; 2]>,
    /// The new poses; none where refused.
    pub poses: Option<Vec<f64>>,
    pub verdict: Option<Verdict>,
    /// The graph, where rows 33 and 34 let the scan pass.
    pub graph: Option<Case>,
    /// How much of either work is +0 afterwards: what a run that began needs.
    pub cleared: (usize, usize),
    /// Where restatement and original disagree; empty unless something here is wrong.
    pub doubts: Vec<String>,
}

/// How the original's answer stands to the port's.
#[derive(Copy, Clone, Debug, PartialEq)]
pub enum Beside {
    /// The same poses, iterations and verdict, or the same refusal.
    Same,
    /// Lengths that the Rust's types can't have.
    Unfit,
    /// A row that the Rust has no word for.
    PortsRow(u32),
    /// The original finds no residual at the last edge before it begins; the run refuses by this row.
    NoLastResidual(u32),
    /// The angle and the cosine decide otherwise, and nothing else does.
    AngleAlone,
}

pub fn expected_closing(scan: &Scan) -> Closing {
    match scan.refused() {
        Some(refusal) => Closing {
            answer: with_usable(refusal_answer(refusal), false),
            costs: None,
            poses: None,
            verdict: None,
            graph: None,
            cleared: (0, 0),
            doubts: Vec::new(),
        },
        None => closed(scan.graph()),
    }
}

fn with_usable(run: [u32; 8], usable: bool) -> [u32; 9] {
    let mut answer = [0; 9];
    answer[..8].copy_from_slice(&run);
    answer[8] = u32::from(usable);
    answer
}

fn closed(case: Case) -> Closing {
    let run = expected(&case);
    let mut doubts = run.doubts.clone();
    let verdict = (run.poses.as_ref()).map(|poses| judged(&case, run.answer[3] == 1, poses));
    if verdict.as_ref().is_some_and(Option::is_none) {
        doubts.push("a run that ended left the last edge without a residual".into());
    }
    doubts.extend(chain_doubt(&case));
    let verdict = verdict.flatten();
    Closing {
        answer: with_usable(run.answer, verdict.is_some_and(|verdict| verdict.usable())),
        costs: run.costs,
        cleared: run.cleared(&case),
        poses: run.poses,
        verdict,
        graph: Some(case),
        doubts,
    }
}

/// The first chain edge that measures something else than the original's.
fn chain_doubt(case: &Case) -> Option<String> {
    let poses = case.owned().poses;
    let edges = case.edges.chunks_exact(8);
    let differs = |(pair, edge): &(&[Pose3d], &[f32])| {
        let measured = original::chain_measurement(&pair[0], &pair[1]);
        !all_same32(&transform_numbers(&measured), &edge[..7])
    };
    let at = poses
        .windows(2)
        .zip(edges)
        .position(|pair| differs(&pair))?;
    Some(format!("chain edge {at} measures something else"))
}

/// A scan as the original holds it.
pub struct Held {
    map: Map,
    loops: Vec<VerifiedLoopEdge>,
    config: PgoConfig,
    inertial: Option<InertialPgoContext>,
}

impl Held {
    /// With the first so many loops.
    pub fn new(scan: &Scan, loops: usize) -> Self {
        let keyframe = |(id, numbers): (&u32, &[f64])| Keyframe {
            frame: Frame {
                idx: *id as usize,
                pose_world_to_cam: pose(numbers),
            },
        };
        let verified = |(pair, numbers): (&[u32], &[f64])| VerifiedLoopEdge {
            candidate_kf_idx: pair[0] as usize,
            query_kf_idx: pair[1] as usize,
            candidate_to_query: pose(numbers),
        };
        let keyframes = scan.ids.iter().zip(scan.poses.chunks_exact(12));
        let pairs = scan.loops.chunks_exact(2);
        let pairs = pairs.zip(scan.loop_poses.chunks_exact(12)).take(loops);
        Self {
            map: Map {
                keyframes: keyframes.map(keyframe).collect(),
            },
            loops: pairs.map(verified).collect(),
            config: config(scan),
            inertial: scan.gravity.map(|gravity| InertialPgoContext {
                gravity_world: vector(&gravity),
            }),
        }
    }

    pub fn closed(&self) -> Result<PgoResult, PgoError> {
        optimize_pose_graph(&self.map, &self.loops, &self.config, self.inertial)
    }
}

fn config(scan: &Scan) -> PgoConfig {
    PgoConfig {
        loop_edge_weight: scan.weight,
        max_iterations: scan.limit as usize,
        cost_tolerance: scan.cost_tolerance,
        gradient_tolerance: scan.gradient_tolerance,
        initial_lambda: scan.damping,
    }
}

fn optimized(scan: &Scan, loops: usize) -> Result<PgoResult, PgoError> {
    Held::new(scan, loops).closed()
}

/// The original beside the answer; a line where they differ in a way that no test knows.
pub fn beside(scan: &Scan, closing: &Closing) -> Result<Beside, String> {
    let number = closing.answer[0];
    if !scan.lengths_fit() {
        return match number {
            33 => Ok(Beside::Unfit),
            _ => Err(format!("lengths that don't fit, and {number}")),
        };
    }
    match (number, &closing.graph) {
        (33, _) => too_few(scan),
        (34, _) => absent(scan, closing.answer[1]),
        (_, Some(case)) if PORTS_OWN.contains(&number) => ports_row(scan, case, number),
        (_, Some(case)) => ran(scan, case, closing),
        (_, None) => Err(format!("{number}, and no graph")),
    }
}

fn too_few(scan: &Scan) -> Result<Beside, String> {
    match optimized(scan, scan.loop_count()) {
        Err(PgoError::TooFewKeyframes) => Ok(Beside::Same),
        other => Err(format!("33, the original {}", said(&other))),
    }
}

/// The place of 34 by the original: the first loop at which it finds a keyframe missing, of a scan in which all
/// else is well and the run is refused at once.
fn absent(scan: &Scan, place: u32) -> Result<Beside, String> {
    let mut plain = scan.clone();
    plain.poses = ahead(0.0).repeat(scan.ids.len());
    plain.loop_poses = ahead(0.0).repeat(scan.loop_count());
    plain.weight = 1.0;
    plain.gravity = None;
    plain.limit = 0;
    let missing = |loops: usize| {
        let answer = optimized(&plain, loops);
        matches!(answer, Err(PgoError::MissingLoopKeyframe))
    };
    let (all, first) = (scan.loop_count(), |count| first_bad(count, missing));
    match optimized(scan, all) {
        Err(PgoError::MissingLoopKeyframe) if missing(all) && first(all) == place => {
            Ok(Beside::Same)
        }
        other => Err(format!("34 at {place}, the original {}", said(&other))),
    }
}

/// Each of the port's own rows by a test on the scan itself; what the original's checks say of the graph is among
/// the doubts already.
fn ports_row(scan: &Scan, case: &Case, number: u32) -> Result<Beside, String> {
    let keyframes = scan.ids.len();
    let unknowns = case.dof() * (keyframes - 1);
    let holds = match number {
        2 => scan.out != scan.poses.len(),
        3 => keyframes > MAX_POSES || scan.edge_count() > MAX_EDGES,
        13 => keyframes - 1 > MAX_FREE,
        14 => scan.work32 < unknowns * (unknowns + 3) || scan.work64 < 24 * keyframes,
        16 => scan.limit > MAX_LIMIT,
        _ => false,
    };
    match holds {
        true => Ok(Beside::PortsRow(number)),
        false => Err(format!("row {number}, for no reason")),
    }
}

/// The original's whole answer, where the port has no row of its own.
fn ran(scan: &Scan, case: &Case, closing: &Closing) -> Result<Beside, String> {
    let number = closing.answer[0];
    let answer = optimized(scan, scan.loop_count());
    let known = match &answer {
        Err(PgoError::TooFewKeyframes) => None,
        Err(PgoError::MissingLoopKeyframe) => no_last_residual(case, number),
        Err(PgoError::Solver(text)) => refused_alike(case, number, text),
        Ok(result) => finished_alike(scan, case, closing, result),
    };
    known.ok_or_else(|| format!("{:?}, the original {}", closing.answer, said(&answer)))
}

/// All loops are named, so it can only be the last edge: the run then refuses before it begins, or by 20.
fn no_last_residual(case: &Case, number: u32) -> Option<Beside> {
    let none = last_residual(case, &case.poses).is_none();
    let refused = number == 20 || ORDER.contains(&number);
    (none && refused).then_some(Beside::NoLastResidual(number))
}

/// The error is the one that the original's run has for the built graph, which the doubts hold against the number;
/// before a run its text names the row.
fn refused_alike(case: &Case, number: u32, text: &str) -> Option<Beside> {
    let owned = case.owned();
    let run = original::optimize(case.axis(), owned.plain(), &case.params());
    let same = run.is_err_and(|said| said == text);
    let row = !ORDER.contains(&number) || row_of(text) == Some(number);
    (same && row && number != 0).then_some(Beside::Same)
}

fn finished_alike(
    scan: &Scan,
    case: &Case,
    closing: &Closing,
    result: &PgoResult,
) -> Option<Beside> {
    let verdict = closing.verdict.as_ref()?;
    let poses = closing.poses.as_ref()?;
    let ids = scan.ids.iter().map(|id| *id as usize);
    let same = ids.eq(result.keyframe_indices.iter().copied())
        && all_same64(&flat(&result.original_poses), &scan.poses)
        && all_same64(&flat(&result.optimized_poses), poses)
        && result.iterations == closing.answer[2] as usize
        && measured_alike(case, verdict, result);
    if !same {
        return None;
    }
    if result.usable == verdict.usable() {
        return Some(Beside::Same);
    }
    angle_alone(case, verdict, result).then_some(Beside::AngleAlone)
}

/// The measures by the original's own functions; of one edge the cost is half its squares, which 2 gives back.
fn measured_alike(case: &Case, verdict: &Verdict, result: &PgoResult) -> bool {
    let edges = case.owned().edges;
    let last = &edges[edges.len() - 1..];
    let poses = [&result.original_poses, &result.optimized_poses];
    let [first_cost, last_cost] = poses.map(|poses| original::judged_cost(poses, &edges));
    let [before, after] = poses.map(|poses| (2.0 * original::judged_cost(poses, last)).sqrt());
    all_same64(&[first_cost, last_cost, before, after], &verdict.measures)
}

/// Angle and cosine disagree at the bound itself, all other tests hold, and each side says what its own test does.
fn angle_alone(case: &Case, verdict: &Verdict, result: &PgoResult) -> bool {
    let Some(gravity) = case.axis() else {
        return false;
    };
    let angle = original::tipped_by(&result.original_poses, &result.optimized_poses, gravity);
    let by_angle = angle <= 1e-4;
    let others_hold = verdict.failing().iter().all(|r| *r == Reason::Tipped);
    by_angle != verdict.gravity_kept()
        && verdict.cosine.is_some_and(at_the_bound)
        && others_hold
        && result.usable == by_angle
}

fn said(answer: &Result<PgoResult, PgoError>) -> String {
    match answer {
        Err(error) => format!("{error:?}"),
        Ok(result) => format!(
            "usable {}, iterations {}, poses {:?}",
            result.usable,
            result.iterations,
            flat(&result.optimized_poses)
        ),
    }
}

#[cfg(test)]
mod tests {
    use super::*;
    use crate::random::Random;
    use crate::scan_inputs::{along_a_line, KINDS};
    use crate::verdict::LEAST_COSINE;

    fn number_and_place(scan: &Scan) -> (u32, u32) {
        let closing = expected_closing(scan);
        assert!(closing.doubts.is_empty(), "{:?}", closing.doubts);
        beside(scan, &closing).expect("the original agrees");
        (closing.answer[0], closing.answer[1])
    }

    /// Three views one apart and a loop of weight 0.5 that says that the last is 0.25 ahead of the first: it is
    /// four times as yielding as a step, so that two thirds of the misfit stay with it.
    #[test]
    fn a_loop_is_closed_and_may_be_printed() {
        let scan = along_a_line(&[10, 20, 30], &[(10, 30)]);
        let closing = expected_closing(&scan);
        assert_eq!(closing.answer[..2], [0, 0]);
        assert_eq!((closing.answer[3], closing.answer[8]), (1, 1));
        assert_eq!(beside(&scan, &closing), Ok(Beside::Same));
        let measures = closing.verdict.expect("it ended").measures;
        assert_eq!((measures[0], measures[2]), (0.5 * 0.875 * 0.875, 0.875));
        let parts = [measures[1] / measures[0], measures[3] / measures[2]];
        assert!(
            parts.iter().all(|part| (part - 2.0 / 3.0).abs() < 1e-4),
            "{parts:?}"
        );
    }

    #[test]
    fn rows_33_and_34_come_before_all_others() {
        let mut scan = along_a_line(&[1, 2], &[(1, 2), (1, 3)]);
        scan.gravity = Some([0.0; 3]);
        scan.out = 0;
        scan.limit = 0;
        assert_eq!(number_and_place(&scan), (34, 1));
        scan.original = 0;
        assert_eq!(number_and_place(&scan), (33, 0));
        let mut known = along_a_line(&[1, 2], &[(1, 2), (2, 1)]);
        known.gravity = Some([0.0; 3]);
        known.out = 0;
        assert_eq!(number_and_place(&known), (1, 0));
        known.gravity = None;
        assert_eq!(number_and_place(&known), (2, 0));
    }

    #[test]
    fn rows_1_and_2_come_before_too_many_edges() {
        let loops = [(1, 2)].repeat(1024);
        let mut scan = along_a_line(&[1, 2], &loops[1..]);
        scan.limit = 1;
        assert_eq!(number_and_place(&scan), (0, 0));
        let mut scan = along_a_line(&[1, 2], &loops);
        assert_eq!(number_and_place(&scan), (3, 0));
        scan.out = 0;
        assert_eq!(number_and_place(&scan), (2, 0));
        scan.gravity = Some([f64::NAN; 3]);
        assert_eq!(number_and_place(&scan), (1, 0));
        scan.loops[9] = 7;
        assert_eq!(number_and_place(&scan), (34, 4));
    }

    #[test]
    fn a_loop_from_a_keyframe_to_itself_is_8() {
        assert_eq!(
            number_and_place(&along_a_line(&[1, 2, 3], &[(2, 2)])),
            (8, 2)
        );
        assert_eq!(
            number_and_place(&along_a_line(&[1, 2, 1], &[(2, 1), (1, 1)])),
            (8, 3)
        );
        let all_equal = along_a_line(&[5, 5, 5], &[(5, 5)]);
        assert_eq!(number_and_place(&all_equal), (8, 2));
    }

    #[test]
    fn a_last_edge_without_a_residual_is_the_runs_refusal() {
        let mut scan = along_a_line(&[1, 2], &[(1, 2)]);
        scan.loop_poses[9] = 3e38;
        scan.weight = 2.0;
        let closing = expected_closing(&scan);
        assert_eq!(closing.answer[..2], [20, 1]);
        assert_eq!(beside(&scan, &closing), Ok(Beside::NoLastResidual(20)));
        scan.loop_poses[9] = 1e39;
        let closing = expected_closing(&scan);
        assert_eq!(beside(&scan, &closing), Ok(Beside::NoLastResidual(10)));
        assert_eq!(closing.answer[..2], [10, 1]);
    }

    /// The original's angle is 0 here; a cosine just below the bound is known, one that is far off is not.
    #[test]
    fn angle_and_cosine_may_differ_at_the_bound_alone() {
        let mut scan = along_a_line(&[10, 20, 30], &[(10, 30)]);
        scan.gravity = Some([0.0, 0.0, -9.81]);
        scan.fit();
        let closing = expected_closing(&scan);
        let (case, verdict) = (
            closing.graph.expect("built"),
            closing.verdict.expect("ended"),
        );
        let result = optimized(&scan, 1).expect("it ends");
        assert!(result.usable && verdict.usable());
        let bound = LEAST_COSINE.to_bits();
        for (bits, known) in [(bound - 1, true), (bound - 2, false), (bound, false)] {
            let cosine = Some(f64::from_bits(bits));
            let differing = Verdict { cosine, ..verdict };
            assert_eq!(angle_alone(&case, &differing, &result), known);
        }
    }

    #[test]
    fn random_scans_agree_with_the_original() {
        for (salt, (name, make)) in KINDS.iter().enumerate() {
            let count = if *name == "closing-large" { 9 } else { 60 };
            for index in 0..count {
                let random = &mut Random::of_case(11, salt as u64, index as u64);
                let scan = make(random, index);
                let closing = expected_closing(&scan);
                assert!(
                    closing.doubts.is_empty(),
                    "{name} {index}: {:?}",
                    closing.doubts
                );
                let beside = beside(&scan, &closing);
                assert!(beside.is_ok(), "{name} {index}: {beside:?} of {scan:?}");
            }
        }
    }
}
