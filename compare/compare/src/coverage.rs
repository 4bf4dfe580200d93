//! What a comparison should meet, each with how often it was met.

use crate::tally::{
    assembly_rows, run_rows, Answers, Tally, EVENTS, READER_ROWS, STOPS, WRITER_ROWS,
};

/// From this N on a comparison of all kinds must have met everything.
pub const MEETS_ALL: usize = 400;

/// From so many cases on a kind of scans, alone or among few, must have given the verdict that it is meant to give.
const MEETS_VERDICT: usize = 50;

pub struct Demand {
    pub what: String,
    pub met: usize,
}

impl Demand {
    pub fn new(what: impl Into<String>, met: usize) -> Self {
        let what = what.into();
        Self { what, met }
    }
}

/// Those that were never met.
fn never(demands: Vec<Demand>) -> Vec<String> {
    let never = demands.into_iter().filter(|demand| demand.met == 0);
    never.map(|demand| demand.what).collect()
}

/// Rows with how often each refused what is named.
fn rows<'a>(
    refused: &'static str,
    rows: &'a [u32],
    answers: &'a Answers,
) -> impl Iterator<Item = Demand> + 'a {
    let demand = move |row: &u32| Demand::new(format!("row {row}{refused}"), answers.of(*row));
    rows.iter().map(demand)
}

fn named<'a>(
    before: &'static str,
    names: &'a [&str],
    counts: &'a [usize],
) -> impl Iterator<Item = Demand> + 'a {
    let each = names.iter().zip(counts);
    each.map(move |(name, count)| Demand::new(format!("{before}{name}"), *count))
}

impl Tally {
    /// All that a comparison of all kinds should meet.
    pub fn demands(&self) -> Vec<Demand> {
        let mut demands = self.run_demands();
        demands.extend(self.piece_demands());
        demands.extend(self.job_demands());
        demands.extend(self.closings.demands());
        demands.extend(self.closings.verdict_demands(0));
        demands.push(Demand::new("a number's text", self.texts.numbers()));
        demands
    }

    /// What was never met of it.
    pub fn missing(&self) -> Vec<String> {
        never(self.demands())
    }

    /// What was never met of that which a comparison too small for the rest is asked too.
    pub fn missing_verdicts(&self) -> Vec<String> {
        never(self.closings.verdict_demands(MEETS_VERDICT))
    }

    fn run_demands(&self) -> Vec<Demand> {
        let mut demands = vec![
            Demand::new("a run that ended", self.answers.of(0)),
            Demand::new("row 21 after a trial", self.late[0]),
        ];
        demands.extend(rows("", &run_rows(), &self.answers));
        demands.extend(named("stop ", &STOPS[1..], &self.stops[1..]));
        demands
    }

    /// Hooked runs, their events, and assembly alone.
    fn piece_demands(&self) -> Vec<Demand> {
        let mut demands = vec![
            Demand::new("a hooked run that ended", self.hooked.of(0)),
            Demand::new("row 22 of a hooked run", self.hooked.of(22)),
            Demand::new("an assembly that was done", self.assemblies.of(0)),
        ];
        demands.extend(named("event: ", &EVENTS, &self.events));
        let assembly = assembly_rows();
        demands.extend(rows(" of assembly alone", &assembly, &self.assemblies));
        demands
    }

    fn job_demands(&self) -> Vec<Demand> {
        let mut demands = vec![
            Demand::new("a job read", self.jobs_read.of(0)),
            Demand::new("a job written", self.jobs_written.of(0)),
        ];
        demands.extend(rows(" of a job not read", &READER_ROWS, &self.jobs_read));
        demands.extend(rows(
            " of a job not written",
            &WRITER_ROWS,
            &self.jobs_written,
        ));
        demands
    }
}
