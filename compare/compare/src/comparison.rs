//! One comparison: every case of every kind that is asked for, and what it came to.

use port::Exports;
use restated::random::Random;

use crate::asked::Asked;
use crate::coverage::MEETS_ALL;
use crate::kinds::Kind;
use crate::tally::{Checked, Tally};

/// How many differing cases of one kind are printed in full; of the others only the line.
const IN_FULL: usize = 10;

/// The port that is asked, and what was met so far.
pub struct Comparison {
    pub port: Exports,
    pub tally: Tally,
}

impl Comparison {
    pub fn with(port: Exports) -> Self {
        Self {
            port,
            tally: Tally::default(),
        }
    }

    /// One case, known by its seed, its kind's place among the kinds and its index.
    pub fn check(&mut self, seed: u64, place: usize, kind: &Kind, index: usize) -> Checked {
        let mut random = Random::of_case(seed, place as u64, index as u64);
        (kind.check)(&mut random, index, self)
    }
}

/// What a comparison came to.
pub struct Outcome {
    pub differing: usize,
    /// What should have been met and was not.
    pub missing: Vec<String>,
    /// Why not all of what a comparison should meet was asked of this one; none where it was.
    pub coverage_not_asked: Option<String>,
    pub tally: Tally,
}

impl Outcome {
    pub fn holds(&self) -> bool {
        self.differing == 0 && self.missing.is_empty()
    }

    pub fn print(&self) {
        self.tally.print();
        match &self.coverage_not_asked {
            Some(why) => println!("not asked whether every row and stop was met: {why}"),
            None => println!("asked to be met: {} things", self.tally.demands().len()),
        }
        for what in &self.missing {
            println!("NOT MET: {what}");
        }
        match self.differing {
            0 => println!("no difference"),
            count => println!("{count} cases differ"),
        }
    }
}

pub fn compare(asked: &Asked, kinds: &[Kind], port: Exports) -> Outcome {
    let mut comparison = Comparison::with(port);
    let (mut differing, mut missing, mut cases) = (0, Vec::new(), 0);
    println!("{:<28}{:>9}{:>9}", "kind", "cases", "differ");
    for (place, kind) in kinds.iter().enumerate() {
        if asked.wants(kind) {
            let indices = asked.indices(kind);
            if indices.is_empty() {
                missing.push(format!("a case of the kind {}", kind.name));
            }
            cases += indices.len();
            differing += run_kind(asked, place, kind, &indices, &mut comparison);
        }
    }
    if cases == 0 {
        missing.push("anything to compare".into());
    }
    let tally = comparison.tally;
    let coverage_not_asked = not_asked(asked);
    missing.extend(match &coverage_not_asked {
        None => tally.missing(),
        Some(_) => tally.missing_verdicts(),
    });
    Outcome {
        differing,
        missing,
        coverage_not_asked,
        tally,
    }
}

/// Why a comparison can't be asked to have met everything; none where it can.
fn not_asked(asked: &Asked) -> Option<String> {
    match &asked.kind {
        Some(_) => Some("one kind alone was compared".into()),
        None if asked.count < MEETS_ALL => Some(format!("N is below {MEETS_ALL}")),
        None => None,
    }
}

/// How many cases of the kind differ.
fn run_kind(
    asked: &Asked,
    place: usize,
    kind: &Kind,
    indices: &[usize],
    comparison: &mut Comparison,
) -> usize {
    let mut differing = 0;
    for index in indices {
        let checked = comparison.check(asked.seed, place, kind, *index);
        if !checked.lines.is_empty() {
            differing += 1;
            let Asked { count, seed, .. } = asked;
            println!("DIFFERS: {count} {seed} {} {index}", kind.name);
            checked.print(differing <= IN_FULL);
        }
    }
    println!("{:<28}{:>9}{differing:>9}", kind.name, indices.len());
    differing
}
