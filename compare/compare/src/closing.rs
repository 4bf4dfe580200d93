//! One scan: `pgo_close_loops` against the restated answer, against the port's own run on the graph that the scan
//! is built into, and against the original's optimize_pose_graph.

use port::Exports;
use restated::closing::{beside, expected_closing, Closing};
use restated::random::Random;
use restated::scan::Scan;
use restated::scan_inputs::KINDS;
use restated::{all_same32, all_same64};

use crate::buffers::{stale64, untouched64};
use crate::comparison::Comparison;
use crate::runs::{run_lines, Buffers, MustAnswer};
use crate::tally::Checked;

/// Everything lent to one call.
#[derive(Clone)]
struct Lent {
    run: Buffers,
    original: Vec<f64>,
    measures: Vec<f64>,
}

impl Lent {
    fn stale(random: &mut Random, scan: &Scan) -> Self {
        let mut run = Buffers::stale(random, [scan.work32, scan.work64, scan.out]);
        run.answer.push(0xDEAD_BEEF);
        Self {
            run,
            original: stale64(random, scan.original),
            measures: stale64(random, 4),
        }
    }

    fn call(&mut self, port: &Exports, scan: &Scan) -> u32 {
        let (original, measures) = (&mut self.original, &mut self.measures);
        (port.close_loops)(inputs(scan), self.run.lent(), original, measures)
    }
}

pub fn inputs(scan: &Scan) -> port::Scan<'_> {
    port::Scan {
        ids: &scan.ids,
        poses: &scan.poses,
        loops: &scan.loops,
        loop_poses: &scan.loop_poses,
        weight: scan.weight,
        gravity: scan.gravity.as_ref().map_or(&[], |gravity| &gravity[..]),
        limit: scan.limit,
        cost_tolerance: scan.cost_tolerance,
        gradient_tolerance: scan.gradient_tolerance,
        damping: scan.damping,
    }
}

/// A scan of the kind of that number.
pub fn check_closing(
    random: &mut Random,
    number: usize,
    index: usize,
    c: &mut Comparison,
) -> Checked {
    let (name, make) = KINDS[number];
    let scan = make(random, index);
    let e = expected_closing(&scan);
    let mut lines = e.doubts.clone();
    match beside(&scan, &e) {
        Ok(beside) => c.tally.closings.count(name, &e, beside),
        Err(line) => lines.push(line),
    }
    let before = Lent::stale(random, &scan);
    let mut after = before.clone();
    let status = after.call(&c.port, &scan);
    let asked = MustAnswer {
        answer: &e.answer,
        costs: e.costs,
        poses: e.poses.as_deref(),
        cleared: e.cleared,
    };
    let tally = &mut c.tally;
    lines.extend(run_lines(&asked, status, &before.run, &after.run, tally));
    lines.extend(run_beside(&c.port, &e, &before, &after));
    lines.extend(copy_line(&scan, status, &before, &after));
    lines.extend(measures_line(&e, &before, &after));
    Checked {
        lines,
        input: format!("{scan:?}"),
    }
}

/// The port's own run on the built graph, over the same stale numbers, leaves the same.
fn run_beside(port: &Exports, e: &Closing, before: &Lent, after: &Lent) -> Option<String> {
    let case = e.graph.as_ref()?;
    let mut beside = before.run.clone();
    beside.answer.pop();
    let status = beside.call(port, case);
    let same = after.run.answer[..8] == beside.answer
        && all_same32(&after.run.costs, &beside.costs)
        && all_same32(&after.run.work32, &beside.work32)
        && all_same64(&after.run.work64, &beside.work64)
        && all_same64(&after.run.out, &beside.out);
    (!same).then(|| {
        format!(
            "the run on the built graph: {status} {:?} {:?} {:?}",
            beside.answer, beside.costs, beside.out
        )
    })
}

/// The original poses' bits where the run ended, else as found.
fn copy_line(scan: &Scan, status: u32, before: &Lent, after: &Lent) -> Option<String> {
    let copied = match status {
        0 => &scan.poses,
        _ => &before.original,
    };
    (!untouched64(copied, &after.original))
        .then(|| format!("original: port {:?}, expected {copied:?}", after.original))
}

/// The four measures where the run ended, else as found.
fn measures_line(e: &Closing, before: &Lent, after: &Lent) -> Option<String> {
    let (measures, agree) = match &e.verdict {
        Some(v) => (&v.measures[..], all_same64(&v.measures, &after.measures)),
        None => {
            let found = &before.measures[..];
            (found, untouched64(found, &after.measures))
        }
    };
    (!agree).then(|| format!("measures: port {:?}, expected {measures:?}", after.measures))
}
