//! Times the checks of graphs at the limits: rows 1 to 13, row 26's search, and one assembly to hold it against.

use std::hint::black_box;
use std::time::Duration;

use restated::case::Case;

use crate::graphs::{best_order, bystanders, worst_order, EDGES, FREE, POSES};
use crate::islands::Search;
use crate::timing::{in_turn, median, Assembly, Whole};

/// The search may take this part of an assembly.
const MOST: f64 = 1.0 / 20.0;

/// It can't take less than this part of rows 1 to 13, which go through the same edges. Where it seems to, it was not seen:
/// the port searches although row 13 has refused, or never.
const LEAST: f64 = 1.0 / 100.0;

/// Turns a round.
const TURNS: usize = 100;

/// How many calls a sample has, and how many turns there are to a sample.
struct Often {
    calls: u32,
    turns: usize,
}

/// Checks have short samples and many, since the search is a small difference between two of them.
const CHECKS: Often = Often { calls: 4, turns: 1 };

const ASSEMBLY: Often = Often {
    calls: 1,
    turns: TURNS,
};

/// A call of the port and the number that it must answer.
struct Call<'a> {
    number: u32,
    often: Often,
    answer: Box<dyn Fn() -> u32 + 'a>,
}

impl<'a> Call<'a> {
    fn new(number: u32, often: Often, answer: impl Fn() -> u32 + 'a) -> Self {
        let answer = Box::new(answer);
        Self {
            number,
            often,
            answer,
        }
    }

    fn compared(&self) -> Result<(), String> {
        match (self.answer)() {
            number if number == self.number => Ok(()),
            number => Err(format!("ANSWERED {number} INSTEAD OF {}", self.number)),
        }
    }

    fn sample(&self) {
        for _ in 0..self.often.calls {
            assert_eq!(black_box((self.answer)()), self.number);
        }
    }

    fn microseconds(&self, samples: &[Duration]) -> Vec<f64> {
        let calls = f64::from(self.often.calls);
        let a_call = |sample: &Duration| sample.as_secs_f64() * 1e6 / calls;
        samples.iter().map(a_call).collect()
    }
}

/// Of the same lists: the limit 0, refused after the search; a free pose too many, refused before it; an assembly.
fn calls(case: &Case) -> [Call<'_>; 3] {
    let [after, before] = [case; 2].map(Whole::new);
    let assembly = Assembly::new(case);
    [
        Call::new(15, CHECKS, move || after.answer_with(&case.fixed, 0).0),
        Call::new(13, CHECKS, move || {
            before.answer_with(&case.fixed[1..], 0).0
        }),
        Call::new(0, ASSEMBLY, move || assembly.answer()),
    ]
}

/// That each call has its answer, that the search refuses a graph without weights, and that there are all the renamings.
fn compared(case: &Case) -> Result<(), String> {
    calls(case).iter().try_for_each(Call::compared)?;
    let mut loose = case.clone();
    let weights = loose.edges.iter_mut().skip(7).step_by(8);
    weights.for_each(|weight| *weight = 0.0);
    let loose = Whole::new(&loose);
    let loose = Call::new(26, CHECKS, || loose.answer().0);
    loose.compared()?;
    match Search::new(case).renamed.len() {
        FREE => Ok(()),
        renamings => Err(format!("{renamings} RENAMINGS INSTEAD OF {FREE}")),
    }
}

/// Prints a line for each graph; whether all was answered as it must be and every search is short enough.
pub fn bench(rounds: usize) -> bool {
    println!("checks at the limits ({POSES} poses, {FREE} free, {EDGES} edges, {FREE} renamings)");
    let graphs = [
        ("worst order", worst_order()),
        ("best order", best_order()),
        ("bystanders", bystanders()),
    ];
    for (name, case) in &graphs {
        if let Err(difference) = compared(case) {
            println!("  {name:<11} {difference}");
            return false;
        }
    }
    let calls = graphs.each_ref().map(|(_, case)| calls(case));
    let times = times(rounds, calls.as_flattened());
    let lines = graphs.iter().zip(times.chunks_exact(3));
    lines.fold(true, |fits, ((name, case), times)| {
        line(name, case, times) && fits
    })
}

/// Microseconds of each call, sample by sample, all in turn.
fn times(rounds: usize, calls: &[Call]) -> Vec<Vec<f64>> {
    let works = calls
        .iter()
        .map(|call| (call.often.turns, || call.sample()));
    let samples = in_turn(rounds * TURNS, &works.collect::<Vec<_>>());
    let pairs = calls.iter().zip(samples);
    pairs
        .map(|(call, samples)| call.microseconds(&samples))
        .collect()
}

/// The search's time is the median of the differences between neighbouring samples.
fn line(name: &str, case: &Case, times: &[Vec<f64>]) -> bool {
    let [after, before, assembly] = times else {
        return false;
    };
    let searches = after
        .iter()
        .zip(before)
        .map(|(after, before)| after - before);
    let search = median(&searches.collect::<Vec<f64>>());
    let (rows, assembly) = (median(before), median(assembly));
    let labels: usize = Search::new(case).renamed.iter().sum();
    let times = format!(
        "rows 1 to 13 {rows:>6.2} us   search {search:>5.2} us   assembly {assembly:>7.1} us"
    );
    let (of_rows, part) = (search / rows, assembly / search);
    let ratios = format!("search/rows {of_rows:.2}   search/assembly 1/{part:.0}");
    println!("  {name:<11} {labels:>4} labels renamed   {times}   {ratios}");
    let fault = if search < LEAST * rows {
        "NO SEARCH IS SEEN"
    } else if MOST * assembly < search {
        "THE SEARCH IS TOO LONG"
    } else {
        return true;
    };
    println!("  {name:<11} {fault}");
    false
}

#[cfg(test)]
mod tests {
    use super::*;

    #[test]
    fn every_graph_is_answered_as_it_must_be() {
        for case in [worst_order(), best_order(), bystanders()] {
            assert_eq!(compared(&case), Ok(()));
        }
    }

    #[test]
    fn other_graphs_are_refused() {
        let mut fewer = worst_order();
        fewer.fixed.push(0);
        let mut more = worst_order();
        more.fixed.remove(0);
        let mut loose = bystanders();
        loose.edges[7] = 0.0;
        let mut broken = worst_order();
        broken.edges[0] = f32::NAN;
        for case in [fewer, more, loose, broken] {
            assert!(compared(&case).is_err());
        }
    }

    #[test]
    fn search_that_is_not_seen_or_too_long_is_refused() {
        let case = bystanders();
        let fits = |after, assembly| line("", &case, &[vec![after], vec![5.0], vec![assembly]]);
        assert!(fits(6.0, 20.0));
        assert!(!fits(6.0, 19.9));
        assert!(fits(5.06, 20.0));
        assert!(!fits(5.04, 20.0));
        assert!(!fits(4.0, 20.0));
    }
}
