//! The answer that a case must get: the table's refusal, or the run's ending; held on the way against the original,
//! plain and with hooks, so that every doubt about the restatement itself comes out too.

use original_hooked as rust;
use original_hooked::{Forced, Record};

use crate::case::{pose_numbers, Case, Owned};
use crate::decide::{refusal_answer, Ending, List};
use crate::run::{run, Told};
use crate::table::{position, refused, Refusal, ORDER, PORTS_OWN};
use crate::{all_same64, same32};

#[derive(Clone, Debug)]
pub struct Expected {
    /// Number, place, iterations, converged, A, R, F, stop.
    pub answer: [u32; 8],
    /// First and last cost; none where refused.
    pub costs: Option<[f32; 2]>,
    /// The poses in flat form; none where refused.
    pub poses: Option<Vec<f64>>,
    /// What the decisions heard, where there was anything to hear.
    pub list: Option<List>,
    /// Places where original and restatement disagree; empty unless something here is wrong.
    pub doubts: Vec<String>,
}

impl Expected {
    /// Success, and the rows that are not asked before a run: the run began.
    pub fn begun(&self) -> bool {
        !ORDER.contains(&self.answer[0])
    }

    /// How much of either work is +0 afterwards: all that a run needs, where it began.
    pub fn cleared(&self, case: &Case) -> (usize, usize) {
        match self.begun() {
            true => (case.need32(), case.need64()),
            false => (0, 0),
        }
    }
}

pub fn expected(case: &Case) -> Expected {
    expected_forced(case, None)
}

/// With the hooks forced, where given; the plain original is asked only without.
pub fn expected_forced(case: &Case, forced: Option<&Forced>) -> Expected {
    match refused(case) {
        Some(refusal) => Expected {
            answer: refusal_answer(refusal),
            costs: None,
            poses: None,
            list: None,
            doubts: refusal_doubts(case, Some(refusal)),
        },
        None => begun(case, forced),
    }
}

fn begun(case: &Case, forced: Option<&Forced>) -> Expected {
    let owned = case.owned();
    let mut doubts = refusal_doubts(case, None);
    let Ok(blocks) = rust::checked(owned.hooked(), &case.params()) else {
        return nothing(doubts);
    };
    let none = Forced::default();
    let told = run(case, &owned, &blocks, forced.unwrap_or(&none));
    doubts.extend(run_doubts(case, &owned, &told, forced));
    Expected {
        answer: answer(&told),
        costs: costs(&told),
        poses: poses(&told),
        list: told.list(case),
        doubts,
    }
}

fn nothing(doubts: Vec<String>) -> Expected {
    Expected {
        answer: [u32::MAX; 8],
        costs: None,
        poses: None,
        list: None,
        doubts,
    }
}

fn answer(told: &Told) -> [u32; 8] {
    match &told.machine {
        Err(refusal) => refusal_answer(*refusal),
        Ok(machine) => machine.answer().unwrap_or([u32::MAX; 8]),
    }
}

fn finished(told: &Told) -> bool {
    matches!(&told.machine, Ok(machine) if matches!(machine.ending, Some(Ending::Stopped(_))))
}

fn costs(told: &Told) -> Option<[f32; 2]> {
    let machine = told.machine.as_ref().ok()?;
    finished(told).then_some([machine.first_cost, machine.cost])
}

fn poses(told: &Told) -> Option<Vec<f64>> {
    finished(told).then(|| flat(&told.poses))
}

pub fn flat(poses: &[kornia_3d::pose::Pose3d]) -> Vec<f64> {
    poses.iter().flat_map(pose_numbers).collect()
}

/// The row that the original's text speaks of, of those it has before a run.
pub(crate) fn row_of(text: &str) -> Option<u32> {
    const TEXTS: [(&str, u32); 14] = [
        ("gravity vector", 1),
        ("empty poses", 4),
        ("empty edges", 5),
        ("pose must contain only finite values", 6),
        ("pose-graph edge index is out of range", 7),
        ("pose-graph edge endpoints must be distinct", 8),
        ("pose-graph edge weight must be finite", 9),
        ("SE(3) transform must contain only finite values", 10),
        ("fixed pose index is out of range", 11),
        ("pose graph has no free poses", 12),
        ("maximum iterations must be greater than zero", 15),
        ("cost tolerance must be", 17),
        ("gradient tolerance must be", 18),
        ("initial LM damping must be", 19),
    ];
    let said = text.strip_prefix("invalid input: ")?;
    let found = TEXTS.iter().find(|(start, _)| said.starts_with(start));
    found.map(|(_, row)| *row)
}

/// The original's own row before a run, none where it lets the input pass.
fn originals_row(case: &Case, owned: &Owned) -> Option<u32> {
    let gravity = case.axis().map(rust::unit_gravity);
    match gravity {
        Some(Err(text)) => row_of(&text),
        _ => match rust::checked(owned.hooked(), &case.params()) {
            Ok(_) => None,
            Err(text) => row_of(&text),
        },
    }
}

fn refusal_doubts(case: &Case, refusal: Option<Refusal>) -> Vec<String> {
    let number = refusal.map_or(0, |r| r.number);
    if number == 2 {
        return Vec::new();
    }
    let owned = case.owned();
    let original = originals_row(case, &owned);
    let agree = match refusal {
        None => original.is_none(),
        Some(r) if PORTS_OWN.contains(&r.number) => {
            original.is_none_or(|row| position(row) > position(r.number))
        }
        Some(r) => original == Some(r.number) && originals_place(&owned, r.number) == r.place,
    };
    let say = || format!("table {refusal:?}, the original's row {original:?}");
    if agree {
        Vec::new()
    } else {
        vec![say()]
    }
}

/// The place of rows 6 to 11 by the original: the first pose, edge or entry at which it refuses what came so far.
fn originals_place(owned: &Owned, number: u32) -> u32 {
    let says = |poses: usize, edges: usize, fixed: usize| {
        let graph = rust::Graph {
            poses: &owned.poses[..poses],
            edges: &owned.edges[..edges],
            fixed: &owned.fixed[..fixed],
        };
        rust::blocks(graph).err().and_then(|text| row_of(&text)) == Some(number)
    };
    let (poses, edges, fixed) = (owned.poses.len(), owned.edges.len(), owned.fixed.len());
    let first = match number {
        6 => (0..poses).find(|k| says(k + 1, 0, 0)),
        7..=10 => (0..edges).find(|k| says(poses, k + 1, 0)),
        11 => (0..fixed).find(|k| says(poses, edges, k + 1)),
        _ => Some(0),
    };
    first.map_or(u32::MAX, |k| k as u32)
}

/// Where the restated run and the original disagree.
fn run_doubts(case: &Case, owned: &Owned, told: &Told, forced: Option<&Forced>) -> Vec<String> {
    let none = Forced::default();
    let forced_or_none = forced.unwrap_or(&none);
    let (axis, params) = (case.axis(), case.params());
    let (result, record) = rust::optimize_hooked(axis, owned.hooked(), &params, forced_or_none);
    let mut doubts: Vec<String> = told
        .impossible
        .iter()
        .map(|t| format!("impossible: {t}"))
        .collect();
    doubts.extend(record_doubts(told, &record));
    let hooked = result.map(|r| (flat(&r.poses), r.iterations, r.converged));
    if !agrees(told, &hooked) {
        doubts.push(format!(
            "restated {:?}, hooked original {hooked:?}",
            answer(told)
        ));
    }
    if forced.is_none() {
        let plain = original::optimize(axis, owned.plain(), &params);
        let plain = plain.map(|r| (flat(&r.poses), r.iterations, r.converged));
        if !agrees(told, &plain) {
            doubts.push(format!(
                "restated {:?}, plain original {plain:?}",
                answer(told)
            ));
        }
    }
    doubts
}

type Ran = Result<(Vec<f64>, usize, bool), String>;

fn agrees(told: &Told, ran: &Ran) -> bool {
    let answer = answer(told);
    match ran {
        Ok((poses, iterations, converged)) => {
            finished(told)
                && answer[2] as usize == *iterations
                && answer[3] == u32::from(*converged)
                && all_same64(poses, &flat(&told.poses))
        }
        Err(text) if text.starts_with("sparse Cholesky") => answer[0] == 22,
        Err(text) => matches!(answer[0], 20 | 21) && !text.contains("norm must be finite"),
    }
}

fn record_doubts(told: &Told, record: &Record) -> Vec<String> {
    let dampings = told.dampings.len() == record.solve_dampings.len()
        && (told.dampings.iter().zip(&record.solve_dampings)).all(|(a, b)| same32(*a, *b));
    let same = |(a, b): (&rust::Trial, &rust::Trial)| {
        same32(a.damping, b.damping)
            && a.accepted == b.accepted
            && a.numerical_failure == b.numerical_failure
    };
    let trials = told.trials.len() == record.trials.len()
        && told.trials.iter().zip(&record.trials).all(same);
    let agree = dampings && trials && told.assemblies == record.normal_assemblies;
    let say = || format!("events {:?}, the original recorded {record:?}", told.events);
    let counted = counts_doubt(told, record);
    (!agree).then(say).into_iter().chain(counted).collect()
}

/// A, R and F worked out from the record alone (solves = A + R + F, one more for Step).
fn counts_doubt(told: &Told, record: &Record) -> Option<String> {
    if !finished(told) {
        return None;
    }
    let answer = answer(told);
    let accepted = record.trials.iter().filter(|t| t.accepted).count();
    let rejected = record.trials.len() - accepted;
    let step = usize::from(answer[7] == 3);
    let failed = record.solve_dampings.len() - record.trials.len() - step;
    let counts = [accepted as u32, rejected as u32, failed as u32];
    (counts != answer[4..7]).then(|| format!("counts {counts:?}, restated {answer:?}"))
}
