//! One whole run: the port's answer, output and work against what the original and document 01 ask.
//! What holds of the run's numbers is asked here of any call that runs.

use original_hooked::Forced;
use port::Exports;
use restated::case::Case;
use restated::expect::{expected, expected_forced, Expected};
use restated::random::Random;
use restated::{all_same32, all_same64};

use crate::buffers::{cleared32, cleared64, stale32, stale64, untouched32, untouched64};
use crate::comparison::Comparison;
use crate::decide::check_list;
use crate::tally::{Checked, Tally};

/// Everything lent to one call.
#[derive(Clone)]
pub struct Buffers {
    pub work32: Vec<f32>,
    pub work64: Vec<f64>,
    pub out: Vec<f64>,
    pub answer: Vec<u32>,
    pub costs: Vec<f32>,
}

/// What a call that runs must answer, and how much of either work it leaves +0.
pub struct MustAnswer<'a> {
    pub answer: &'a [u32],
    pub costs: Option<[f32; 2]>,
    pub poses: Option<&'a [f64]>,
    pub cleared: (usize, usize),
}

impl Buffers {
    /// Stale numbers of such lengths: f32 work, f64 work, output.
    pub fn stale(random: &mut Random, lengths: [usize; 3]) -> Self {
        Self {
            work32: stale32(random, lengths[0]),
            work64: stale64(random, lengths[1]),
            out: stale64(random, lengths[2]),
            answer: vec![0xDEAD_BEEF; 8],
            costs: vec![-123.5; 2],
        }
    }

    pub fn lent(&mut self) -> port::Lent<'_> {
        port::Lent {
            work32: &mut self.work32,
            work64: &mut self.work64,
            out: &mut self.out,
            answer: &mut self.answer,
            costs: &mut self.costs,
        }
    }

    pub fn call(&mut self, port: &Exports, case: &Case) -> u32 {
        let (inputs, lent) = (inputs(case), self.lent());
        match case.gravity {
            None => (port.optimize)(inputs, lent),
            Some(gravity) => (port.optimize_with_gravity)(gravity, inputs, lent),
        }
    }
}

pub fn inputs(case: &Case) -> port::Inputs<'_> {
    port::Inputs {
        poses: &case.poses,
        ends: &case.ends,
        edges: &case.edges,
        fixed: &case.fixed,
        limit: case.limit,
        cost_tolerance: case.cost_tolerance,
        gradient_tolerance: case.gradient_tolerance,
        damping: case.damping,
    }
}

pub fn check_run(random: &mut Random, case: &Case, c: &mut Comparison) -> Checked {
    let e = expected(case);
    c.tally.count(&e.answer, e.list.as_ref());
    let mut lines = e.doubts.clone();
    let before = Buffers::stale(random, [case.work32, case.work64, case.out]);
    let mut after = before.clone();
    let status = after.call(&c.port, case);
    let asked = MustAnswer {
        answer: &e.answer,
        costs: e.costs,
        poses: e.poses.as_deref(),
        cleared: e.cleared(case),
    };
    lines.extend(run_lines(&asked, status, &before, &after, &mut c.tally));
    lines.extend(e.list.iter().flat_map(|list| check_list(&c.port, list)));
    Checked {
        lines,
        input: format!("{case:?}"),
    }
}

/// The differences of one call that runs.
pub fn run_lines(
    asked: &MustAnswer,
    status: u32,
    before: &Buffers,
    after: &Buffers,
    tally: &mut Tally,
) -> Vec<String> {
    let mut lines = answer_lines(asked, status, before, after);
    lines.extend(pose_lines(asked, before, after, tally));
    lines.extend(work_lines(asked, before, after));
    lines
}

fn answer_lines(asked: &MustAnswer, status: u32, before: &Buffers, after: &Buffers) -> Vec<String> {
    let mut lines = Vec::new();
    if status != asked.answer[0] || after.answer != asked.answer {
        lines.push(format!(
            "answer: port {status} {:?}, expected {:?}",
            after.answer, asked.answer
        ));
    }
    let costs = asked.costs.map_or(before.costs.clone(), |c| c.to_vec());
    if !all_same32(&after.costs, &costs) {
        lines.push(format!("costs: port {:?}, expected {costs:?}", after.costs));
    }
    lines
}

fn pose_lines(
    asked: &MustAnswer,
    before: &Buffers,
    after: &Buffers,
    tally: &mut Tally,
) -> Vec<String> {
    match asked.poses {
        None if untouched64(&before.out, &after.out) => Vec::new(),
        None => vec![format!(
            "refused, but the output was written: {:?}",
            after.out
        )],
        Some(poses) => {
            if after.answer.first() == Some(&0) {
                tally.measure(poses, &after.out);
            }
            if all_same64(poses, &after.out) {
                return Vec::new();
            }
            vec![format!("poses: port {:?}, original {poses:?}", after.out)]
        }
    }
}

/// Untouched by a refusal before the run; else the needed work is +0 and the rest untouched.
fn work_lines(asked: &MustAnswer, before: &Buffers, after: &Buffers) -> Vec<String> {
    let (need32, need64) = asked.cleared;
    let clear = cleared32(&after.work32[..need32]) && cleared64(&after.work64[..need64]);
    let kept = untouched32(&before.work32[need32..], &after.work32[need32..])
        && untouched64(&before.work64[need64..], &after.work64[need64..]);
    let say = |holds: bool, line: &str| (!holds).then(|| line.to_string());
    [
        say(
            clear,
            "work: the needed part is not +0 after a run that began",
        ),
        say(kept, "work: written where it must stay as found"),
    ]
    .into_iter()
    .flatten()
    .collect()
}

/// The original with its hooks forced against the decisions alone.
pub fn check_forced(case: &Case, forced: &Forced, c: &mut Comparison) -> Checked {
    let e = expected_forced(case, Some(forced));
    c.tally.count_hooked(&e.answer, e.list.as_ref());
    let mut lines = e.doubts.clone();
    if let Some(list) = &e.list {
        lines.extend(check_list(&c.port, list));
        lines.extend(list_lines(&e, list));
    }
    Checked {
        lines,
        input: format!("{forced:?} {case:?}"),
    }
}

/// The list's own answer is the run's, but for the place of 21.
fn list_lines(e: &Expected, list: &restated::decide::List) -> Option<String> {
    let decided = list.decided();
    let mut answer = e.answer;
    answer[1] = 0;
    let agree = decided.answer == Some(answer) && decided.status == e.answer[0];
    (!agree).then(|| format!("list {decided:?}, run {:?}", e.answer))
}
