//! What was met of scans, kind by kind: verdicts with the tests that fail, refusals, and how the original stood
//! beside each answer; and what of it should be met.

use std::collections::BTreeMap;

use restated::closing::{Beside, Closing};
use restated::scan_faults::SCAN_ROWS;
use restated::table::IN_THE_RUN;
use restated::verdict::Reason;

use crate::coverage::Demand;
use crate::tally::Answers;

#[derive(Default)]
pub struct Closings {
    kinds: BTreeMap<&'static str, Met>,
}

#[derive(Default)]
struct Met {
    cases: usize,
    verdicts: BTreeMap<&'static str, usize>,
    refusals: Answers,
    beside: BTreeMap<String, usize>,
}

const YES: &str = "yes";

/// The verdict that a kind is meant to give, with no other test failing; each comes in every sixth case at least.
const MEANT: [(&str, &str); 5] = [
    ("closing", YES),
    ("closing-short", "no, not converged"),
    ("closing-settled", "no, the cost did not fall"),
    ("closing-worse", "no, the last edge got worse"),
    ("closing-tipped", "no, gravity tipped"),
];

/// The verdict in words: the test that fails, where it is one alone.
fn verdict(failing: &[Reason]) -> &'static str {
    match failing {
        [] => YES,
        [Reason::NotConverged] => "no, not converged",
        [Reason::Tipped] => "no, gravity tipped",
        [Reason::CostNotLower] => "no, the cost did not fall",
        [Reason::LastWorse] => "no, the last edge got worse",
        _ => "no, by several tests",
    }
}

fn standing(beside: Beside) -> String {
    match beside {
        Beside::Same => "the same".into(),
        Beside::Unfit => "lengths that the Rust can't have".into(),
        Beside::PortsRow(row) => format!("the port's own row {row}"),
        Beside::NoLastResidual(row) => format!("no residual at the last edge, row {row} here"),
        Beside::AngleAlone => "angle and cosine differ".into(),
    }
}

impl Closings {
    pub fn count(&mut self, kind: &'static str, closing: &Closing, beside: Beside) {
        let met = self.kinds.entry(kind).or_default();
        met.cases += 1;
        *met.beside.entry(standing(beside)).or_default() += 1;
        match &closing.verdict {
            Some(judged) => *met.verdicts.entry(verdict(&judged.failing())).or_default() += 1,
            None => met.refusals.add(closing.answer[0]),
        }
    }

    pub fn print(&self) {
        for (kind, met) in &self.kinds {
            let (verdicts, refusals) = (counts(&met.verdicts), met.refusals.met());
            println!("{kind}: may be printed: {verdicts}; refused by row {refusals}");
            println!("{kind}: beside the original: {}", counts(&met.beside));
        }
    }

    /// The verdicts that kinds are meant to give, of those that were tried so often.
    pub fn verdict_demands(&self, least: usize) -> Vec<Demand> {
        let mut demands = Vec::new();
        for (kind, wanted) in MEANT {
            let met = self.kinds.get(kind);
            if met.map_or(0, |met| met.cases) >= least {
                let given = met.and_then(|met| met.verdicts.get(wanted));
                let what = format!("{kind}: {wanted}");
                demands.push(Demand::new(what, given.copied().unwrap_or(0)));
            }
        }
        demands
    }

    /// The rows that a scan can meet and the ways in which the original may stand beside an answer.
    pub fn demands(&self) -> Vec<Demand> {
        let mut demands = Vec::new();
        for row in SCAN_ROWS.iter().chain(&IN_THE_RUN) {
            let times = self.kinds.values().map(|met| met.refusals.of(*row)).sum();
            demands.push(Demand::new(format!("row {row} of a scan"), times));
        }
        let differences = [
            Beside::Same,
            Beside::Unfit,
            Beside::NoLastResidual(10),
            Beside::NoLastResidual(20),
        ];
        let own = [2, 3, 13, 14, 16].map(Beside::PortsRow);
        for beside in differences.into_iter().chain(own) {
            let name = standing(beside);
            let of_kind = |met: &Met| met.beside.get(&name).copied().unwrap_or(0);
            let times = self.kinds.values().map(of_kind).sum();
            demands.push(Demand::new(format!("beside the original: {name}"), times));
        }
        demands
    }
}

fn counts<K: std::fmt::Display>(met: &BTreeMap<K, usize>) -> String {
    let each: Vec<_> = met.iter().map(|(name, n)| format!("{name} {n}")).collect();
    each.join("; ")
}
