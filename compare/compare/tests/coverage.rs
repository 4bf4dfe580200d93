//! What a comparison must have met: with nothing met it fails and names everything; what is met is taken off the list,
//! and nothing else; and a comparison of nothing fails.

use compare::kinds::{kinds, Kind};
use compare::{compare, Asked, Outcome, Tally, MEETS_ALL};
use port::EXPORTS;
use restated::closing::{Beside, Closing};
use restated::decide::{Event, List};
use restated::verdict::Verdict;

/// What is not missing any more once this was met.
fn taken_off(meet: impl Fn(&mut Tally)) -> Vec<String> {
    let mut tally = Tally::default();
    let before = tally.missing();
    meet(&mut tally);
    let after = tally.missing();
    let gone = before.into_iter().filter(|what| !after.contains(what));
    gone.collect()
}

/// An answer of a row and a stop, 0 for none.
fn answer(row: u32, stop: u32) -> [u32; 8] {
    [row, 0, 0, 0, 0, 0, 0, stop]
}

/// A number that nothing answers: it meets nothing by itself.
const NO_ROW: u32 = 99;

const STOPS: [&str; 5] = ["Budget", "Gradient", "Step", "Cost", "Damping"];

const EVENTS: [(&str, Event); 7] = [
    ("assembly refused", Event::AssemblyRefused { edge: 0 }),
    ("gradient below", Event::GradientBelow),
    ("solve failed", Event::SolveFailed),
    ("step small", Event::StepSmall),
    ("trial with a cost", Event::Trial { cost: 1.0 }),
    ("retraction failed", Event::RetractionFailed),
    ("cost can't be had", Event::CostFailed),
];

fn list(event: Event) -> List {
    List {
        limit: 1,
        tolerance: 1.0,
        cost: 1.0,
        damping: 1.0,
        events: vec![event],
    }
}

fn rows_before_the_run() -> impl Iterator<Item = u32> {
    (1..=19).chain([26])
}

#[test]
fn rows_and_stops_of_runs() {
    for row in rows_before_the_run().chain(20..=22) {
        let gone = taken_off(|t| t.count(&answer(row, 0), None));
        assert_eq!(gone, [format!("row {row}")]);
    }
    for (stop, name) in (1..).zip(STOPS) {
        let gone = taken_off(|t| t.count(&answer(0, stop), None));
        assert_eq!(gone, ["a run that ended".into(), format!("stop {name}")]);
    }
    let late = taken_off(|t| t.count(&answer(21, 0), Some(&list(EVENTS[4].1))));
    let named = ["row 21 after a trial", "row 21", "event: trial with a cost"];
    assert_eq!(late, named);
}

#[test]
fn hooked_runs_and_events() {
    for (name, event) in EVENTS {
        let gone = taken_off(|t| t.count_hooked(&answer(NO_ROW, 0), Some(&list(event))));
        assert_eq!(gone, [format!("event: {name}")]);
    }
    let [ended, refused] =
        [answer(0, 1), answer(22, 0)].map(|answer| taken_off(|t| t.count_hooked(&answer, None)));
    assert_eq!(ended, ["a hooked run that ended"]);
    assert_eq!(refused, ["row 22 of a hooked run"]);
}

#[test]
fn assemblies_and_jobs() {
    for row in (1..=14).chain([21, 26]) {
        let gone = taken_off(|t| t.count_assembly(row));
        assert_eq!(gone, [format!("row {row} of assembly alone")]);
    }
    for row in [30, 31, 32] {
        let gone = taken_off(|t| t.count_job_read(row));
        assert_eq!(gone, [format!("row {row} of a job not read")]);
    }
    for row in [2, 36] {
        let gone = taken_off(|t| t.count_job_written(row));
        assert_eq!(gone, [format!("row {row} of a job not written")]);
    }
    let done = [
        taken_off(|t| t.count_assembly(0)),
        taken_off(|t| t.count_job_read(0)),
        taken_off(|t| t.count_job_written(0)),
    ];
    let named = ["an assembly that was done", "a job read", "a job written"];
    assert_eq!(done.concat(), named);
}

/// A scan that is refused by a row, or judged.
fn closing(row: u32, verdict: Option<Verdict>) -> Closing {
    let mut answer = [0; 9];
    answer[0] = row;
    Closing {
        answer,
        costs: None,
        poses: None,
        verdict,
        graph: None,
        cleared: (0, 0),
        doubts: Vec::new(),
    }
}

const SAME: &str = "beside the original: the same";

#[test]
fn scans() {
    let rows = [
        1, 2, 3, 6, 8, 9, 10, 13, 14, 15, 16, 17, 18, 19, 20, 21, 22, 33, 34,
    ];
    for row in rows {
        let gone = taken_off(|t| t.closings.count("any", &closing(row, None), Beside::Same));
        assert_eq!(gone, [format!("row {row} of a scan"), SAME.into()]);
    }
    let differences = [
        (
            Beside::Unfit,
            "lengths that the Rust can't have".to_string(),
        ),
        (
            no_residual(10),
            "no residual at the last edge, row 10 here".into(),
        ),
        (
            no_residual(20),
            "no residual at the last edge, row 20 here".into(),
        ),
    ];
    let own = [2, 3, 13, 14, 16].map(|row| {
        let name = format!("the port's own row {row}");
        (Beside::PortsRow(row), name)
    });
    for (beside, name) in differences.into_iter().chain(own) {
        let gone = taken_off(|t| t.closings.count("any", &closing(NO_ROW, None), beside));
        assert_eq!(gone, [format!("beside the original: {name}")]);
    }
}

fn no_residual(row: u32) -> Beside {
    Beside::NoLastResidual(row)
}

/// Costs and residuals before and after that let every test hold, but for what is changed of them.
fn verdict(change: impl Fn(&mut Verdict)) -> Option<Verdict> {
    let mut verdict = Verdict {
        converged: true,
        measures: [2.0, 1.0, 2.0, 1.0],
        cosine: Some(1.0),
    };
    change(&mut verdict);
    Some(verdict)
}

#[test]
fn verdicts() {
    let meant = [
        ("closing", "yes", verdict(|_| ())),
        (
            "closing-short",
            "no, not converged",
            verdict(|v| v.converged = false),
        ),
        (
            "closing-settled",
            "no, the cost did not fall",
            verdict(|v| v.measures[1] = 2.0),
        ),
        (
            "closing-worse",
            "no, the last edge got worse",
            verdict(|v| v.measures[3] = 3.0),
        ),
        (
            "closing-tipped",
            "no, gravity tipped",
            verdict(|v| v.cosine = Some(0.5)),
        ),
    ];
    for (kind, name, verdict) in meant {
        let gone = taken_off(|t| t.closings.count(kind, &closing(0, verdict), Beside::Same));
        assert_eq!(gone, [SAME.into(), format!("{kind}: {name}")]);
    }
}

/// As many as are asked for above: none is asked for that no test here takes off, but the texts.
#[test]
fn how_many() {
    let runs = 1 + 1 + 23 + STOPS.len();
    let pieces = 1 + 1 + EVENTS.len() + 1 + 16;
    let jobs = 1 + 1 + 3 + 2;
    let scans = 19 + 1 + 8 + 5;
    let texts = 1;
    let missing = Tally::default().missing();
    assert_eq!(missing.len(), runs + pieces + jobs + scans + texts);
    assert!(missing.contains(&"a number's text".into()));
}

fn asked(words: &str) -> Result<Asked, String> {
    let arguments: Vec<String> = words.split_whitespace().map(String::from).collect();
    Asked::of(&arguments, &kinds())
}

#[test]
fn what_asks_for_nothing() {
    let refused = |words| asked(words).expect_err(words);
    assert!(refused("0 1").contains("nothing would be compared"));
    assert!(refused("0 1 ring").contains("nothing would be compared"));
    assert!(refused("10 1 square").contains("KIND is none of"));
    assert!(refused("10 1 ring 10").contains("INDEX 10 is past the end"));
    assert!(refused("10 1 lengths 1").contains("past the end"));
    assert!(refused("10 1 samples 1000").contains("past the end"));
    assert!(asked("10 1 ring 9").is_ok() && asked("1 1").is_ok());
}

/// The kinds of these names alone, as if there were no others.
fn only(names: &[&str]) -> Vec<Kind> {
    let mut kinds = kinds();
    kinds.retain(|kind| names.contains(&kind.name));
    kinds
}

fn of_all_kinds(count: usize, kinds: &[Kind]) -> Outcome {
    let asked = Asked {
        count,
        seed: 1,
        kind: None,
        index: None,
    };
    compare(&asked, kinds, EXPORTS)
}

#[test]
fn comparisons_of_nothing_fail() {
    let none = of_all_kinds(1, &[]);
    assert!(!none.holds());
    assert_eq!(none.missing, ["anything to compare"]);
    let mut kinds = only(&["samples", "lengths"]);
    kinds[1].count = |_| 0;
    let one = of_all_kinds(1, &kinds);
    assert!(!one.holds());
    assert_eq!(one.missing, ["a case of the kind lengths"]);
}

/// Agreeing is not enough from that N on; below it nothing is asked.
#[test]
fn what_was_not_met_fails() {
    let kinds = only(&["samples", "lengths"]);
    let few = of_all_kinds(MEETS_ALL - 1, &kinds);
    assert!(few.holds() && few.coverage_not_asked.is_some());
    let enough = of_all_kinds(MEETS_ALL, &kinds);
    assert!(enough.differing == 0 && !enough.holds());
    assert!(enough.coverage_not_asked.is_none());
    assert!(enough
        .missing
        .contains(&"row 36 of a job not written".into()));
}

/// A kind of scans that was tried often enough must have given its verdict, in a small comparison too.
#[test]
fn verdicts_of_a_small_comparison() {
    let mut tally = Tally::default();
    let unmeant = closing(0, verdict(|v| v.converged = false));
    for _ in 0..49 {
        tally.closings.count("closing", &unmeant, Beside::Same);
    }
    assert!(tally.missing_verdicts().is_empty());
    tally.closings.count("closing", &unmeant, Beside::Same);
    assert_eq!(tally.missing_verdicts(), ["closing: yes"]);
}
