//! What was met over all cases: refusals, stops, events, answers about jobs, scans and texts, and the
//! largest difference of pose numbers.

use std::collections::BTreeMap;

use restated::decide::{Event, List};
use restated::table::{IN_THE_RUN, ORDER};

use crate::closings::Closings;
use crate::texts::Texts;

/// One case's differences; no lines means none.
pub struct Checked {
    pub lines: Vec<String>,
    /// The inputs, as Rust prints them: each float reads back to the same bits.
    pub input: String,
}

impl Checked {
    /// In full, or nothing: kind, index and seed give the case again.
    pub fn print(&self, in_full: bool) {
        if in_full {
            for line in &self.lines {
                println!("  {line}");
            }
            println!("  input: {}", self.input);
        }
    }
}

#[derive(Default)]
pub struct Tally {
    pub closings: Closings,
    pub texts: Texts,
    pub(crate) answers: Answers,
    pub(crate) hooked: Answers,
    pub(crate) assemblies: Answers,
    pub(crate) jobs_read: Answers,
    pub(crate) jobs_written: Answers,
    pub(crate) stops: [usize; 6],
    pub(crate) events: [usize; 7],
    /// Refusals by 21 and by 22 after a trial that was accepted or rejected.
    pub(crate) late: [usize; 2],
    sums: [u64; 3],
    largest: f64,
}

/// How often each number came, 0 for no refusal.
#[derive(Default)]
pub struct Answers(BTreeMap<u32, usize>);

impl Answers {
    pub fn add(&mut self, number: u32) {
        *self.0.entry(number).or_default() += 1;
    }

    pub fn of(&self, number: u32) -> usize {
        self.0.get(&number).copied().unwrap_or(0)
    }

    fn line(&self, rows: &[u32]) -> String {
        format!("{}, refused by row {}", self.of(0), self.counts(rows))
    }

    fn counts(&self, rows: &[u32]) -> String {
        let counts: Vec<_> = rows
            .iter()
            .map(|row| format!("{row}:{}", self.of(*row)))
            .collect();
        counts.join(" ")
    }

    /// Those that came.
    pub fn met(&self) -> String {
        let rows: Vec<u32> = self.0.keys().copied().collect();
        match rows.is_empty() {
            true => "none".into(),
            false => self.counts(&rows),
        }
    }
}

/// The rows that a run may give, in their order.
pub(crate) fn run_rows() -> Vec<u32> {
    [ORDER.as_slice(), &IN_THE_RUN].concat()
}

/// The rows that assembly alone may give: up to 14, and 21.
pub(crate) fn assembly_rows() -> Vec<u32> {
    let asked = ORDER.iter().copied().take_while(|row| *row != 15);
    asked.chain([21]).collect()
}

/// What the reader and the writer of job files may give.
pub(crate) const READER_ROWS: [u32; 3] = [30, 31, 32];
pub(crate) const WRITER_ROWS: [u32; 2] = [2, 36];

pub(crate) const STOPS: [&str; 6] = ["-", "Budget", "Gradient", "Step", "Cost", "Damping"];
pub(crate) const EVENTS: [&str; 7] = [
    "assembly refused",
    "gradient below",
    "solve failed",
    "step small",
    "trial with a cost",
    "retraction failed",
    "cost can't be had",
];

impl Tally {
    /// Counts one run's expected answer.
    pub fn count(&mut self, answer: &[u32; 8], list: Option<&List>) {
        let number = answer[0];
        self.answers.add(number);
        if number == 0 {
            self.stops[answer[7] as usize] += 1;
        }
        let events = list.map_or(&[][..], |list| &list.events);
        let tried = events.iter().any(|e| matches!(e, Event::Trial { .. }));
        for (late, row) in self.late.iter_mut().zip([21, 22]) {
            *late += usize::from(number == row && tried);
        }
        self.count_events(answer, events);
    }

    /// Counts one run of the hooked original, whose list alone the port is given.
    pub fn count_hooked(&mut self, answer: &[u32; 8], list: Option<&List>) {
        self.hooked.add(answer[0]);
        let events = list.map_or(&[][..], |list| &list.events);
        self.count_events(answer, events);
    }

    fn count_events(&mut self, answer: &[u32; 8], events: &[Event]) {
        for (sum, n) in self.sums.iter_mut().zip(&answer[4..7]) {
            *sum += u64::from(*n);
        }
        for event in events {
            self.events[event_number(event)] += 1;
        }
    }

    pub fn count_assembly(&mut self, number: u32) {
        self.assemblies.add(number);
    }

    pub fn count_job_read(&mut self, number: u32) {
        self.jobs_read.add(number);
    }

    pub fn count_job_written(&mut self, number: u32) {
        self.jobs_written.add(number);
    }

    pub fn measure(&mut self, a: &[f64], b: &[f64]) {
        for (a, b) in a.iter().zip(b) {
            let far = (a - b).abs();
            if far > self.largest || far.is_nan() {
                self.largest = far;
            }
        }
    }

    pub fn print(&self) {
        println!("runs finished {}", self.answers.line(&run_rows()));
        let [late21, late22] = self.late;
        println!("refused after a trial by 21: {late21}, by 22: {late22}");
        println!("hooked runs finished {}", self.hooked.line(&IN_THE_RUN));
        println!("assemblies done {}", self.assemblies.line(&assembly_rows()));
        println!("jobs read {}", self.jobs_read.line(&READER_ROWS));
        println!("jobs written {}", self.jobs_written.line(&WRITER_ROWS));
        self.closings.print();
        self.texts.print();
        println!("stops: {}", named(&STOPS[1..], &self.stops[1..]));
        println!("events: {}", named(&EVENTS, &self.events));
        let [accepted, rejected, failed] = self.sums;
        println!("A {accepted}, R {rejected}, F {failed} in finished runs");
        println!("largest difference of pose numbers: {:e}", self.largest);
    }
}

fn named(names: &[&str], counts: &[usize]) -> String {
    let each = names.iter().zip(counts);
    let each: Vec<_> = each
        .map(|(name, count)| format!("{name} {count}"))
        .collect();
    each.join(", ")
}

fn event_number(event: &Event) -> usize {
    match event {
        Event::AssemblyRefused { .. } => 0,
        Event::GradientBelow => 1,
        Event::SolveFailed => 2,
        Event::StepSmall => 3,
        Event::Trial { .. } => 4,
        Event::RetractionFailed => 5,
        Event::CostFailed => 6,
    }
}
