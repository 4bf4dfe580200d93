//! Assembly alone: `pgo_assemble` against build_normal_system_with_mapping, gradient and Hessian bits.

use restated::all_same32;
use restated::assembly::assembled;
use restated::case::Case;
use restated::random::Random;

use crate::buffers::{stale32, untouched32};
use crate::comparison::Comparison;
use crate::tally::Checked;

/// Assembly asks nothing of the output and the f64 work: both are put right first.
pub fn check_assembly(random: &mut Random, mut case: Case, c: &mut Comparison) -> Checked {
    case.out = case.poses.len();
    case.work64 = case.need64();
    let expected = assembled(&case);
    let before = stale32(random, case.work32);
    let mut work = before.clone();
    let status = (c.port.assemble)(inputs(&case), &mut work);
    let (number, needed) = match &expected {
        Ok(needed) => (0, needed.as_slice()),
        Err(number) => (*number, &[][..]),
    };
    c.tally.count_assembly(number);
    let mut lines = Vec::new();
    if status != number {
        lines.push(format!("assembly: port {status}, expected {number}"));
    }
    let (system, rest) = work.split_at(needed.len());
    if !all_same32(system, needed) {
        lines.extend(first_difference(system, needed));
    }
    if !untouched32(&before[needed.len()..], rest) {
        lines.push("assembly: work written where it must stay as found".into());
    }
    Checked {
        lines,
        input: format!("{case:?}"),
    }
}

fn first_difference(port: &[f32], expected: &[f32]) -> Option<String> {
    let at = (0..port.len()).find(|i| !restated::same32(port[*i], expected[*i]))?;
    Some(format!(
        "assembly: work[{at}]: port {:?}, expected {:?}",
        port[at], expected[at]
    ))
}

/// Gravity is not looked at for DOF 6, so it is no number there.
fn inputs(case: &Case) -> port::Assembly<'_> {
    const NONE: [f64; 3] = [f64::NAN; 3];
    port::Assembly {
        dof: case.dof() as u32,
        gravity: case.gravity.as_ref().unwrap_or(&NONE),
        poses: &case.poses,
        ends: &case.ends,
        edges: &case.edges,
        fixed: &case.fixed,
    }
}
