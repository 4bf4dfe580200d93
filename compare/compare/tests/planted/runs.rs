//! Whole runs: every number of an answer, the poses, the costs, and what is lent.

use compare::kinds::kinds;
use compare::{compare, Asked};
use port::{Exports, Lent, EXPORTS};

use crate::plant::{all_seen, bit32, bit64, flip, planted, touch32, touch64, Plant};

/// The port with a change behind both kinds of runs: status and what was lent in, status out.
macro_rules! behind_runs {
    ($change:expr) => {
        Exports {
            optimize: |inputs, mut lent| {
                let status = port::optimize(inputs, lent.again());
                ($change)(status, &mut lent)
            },
            optimize_with_gravity: |gravity, inputs, mut lent| {
                let status = port::optimize_with_gravity(gravity, inputs, lent.again());
                ($change)(status, &mut lent)
            },
            ..EXPORTS
        }
    };
}

/// One number of the answer changed where a run ended.
fn ended<const AT: usize>(status: u32, lent: &mut Lent) -> u32 {
    if status == 0 {
        flip(lent.answer.get_mut(AT));
    }
    status
}

/// One number of the answer changed where it is refused.
fn refused<const AT: usize>(status: u32, lent: &mut Lent) -> u32 {
    if status != 0 {
        flip(lent.answer.get_mut(AT));
    }
    status
}

fn swapped(status: u32, lent: &mut Lent) -> u32 {
    if status == 0 && lent.answer[4] != lent.answer[5] {
        lent.answer.swap(4, 5);
        planted();
    }
    status
}

/// Another number comes back than the answer holds.
fn other_status(mut status: u32, _: &mut Lent) -> u32 {
    flip(Some(&mut status));
    status
}

/// The next row instead, in both places.
fn other_row(status: u32, lent: &mut Lent) -> u32 {
    if status == 0 {
        return status;
    }
    planted();
    lent.answer[0] = status + 1;
    status + 1
}

fn taken(status: u32, lent: &mut Lent) -> u32 {
    if status == 0 {
        return status;
    }
    planted();
    lent.answer[0] = 0;
    0
}

/// A change of what is lent, where the status is such.
fn lent(when: fn(u32) -> bool, change: fn(&mut Lent)) -> impl Fn(u32, &mut Lent) -> u32 {
    move |status, lent| {
        if when(status) {
            change(lent);
        }
        status
    }
}

fn is_done(status: u32) -> bool {
    status == 0
}

fn is_refused(status: u32) -> bool {
    status != 0
}

fn is_refused_in_the_run(status: u32) -> bool {
    (20..=22).contains(&status)
}

fn on_both(what: &'static str, port: Exports) -> [Plant; 2] {
    ["ring", "gravity-ring"].map(|kind| Plant { what, kind, port })
}

#[test]
fn what_an_ended_run_answers() {
    let plants = [
        on_both("place", behind_runs!(ended::<1>)),
        on_both("iterations", behind_runs!(ended::<2>)),
        on_both("converged", behind_runs!(ended::<3>)),
        on_both("A and R swapped", behind_runs!(swapped)),
        on_both("A", behind_runs!(ended::<4>)),
        on_both("R", behind_runs!(ended::<5>)),
        on_both("F", behind_runs!(ended::<6>)),
        on_both("stop", behind_runs!(ended::<7>)),
        on_both("what comes back", behind_runs!(other_status)),
    ];
    all_seen(plants.as_flattened());
}

#[test]
fn what_an_ended_run_leaves() {
    let plants = [
        on_both(
            "a bit of a pose number",
            behind_runs!(lent(is_done, |l| bit64(l.out))),
        ),
        on_both(
            "a bit of the first cost",
            behind_runs!(lent(is_done, |l| bit32(&mut l.costs[..1]))),
        ),
        on_both(
            "a bit of the last cost",
            behind_runs!(lent(is_done, |l| bit32(&mut l.costs[1..]))),
        ),
        on_both(
            "the first of the f32 work",
            behind_runs!(lent(is_done, |l| touch32(&mut l.work32[..1]))),
        ),
        on_both(
            "the last of the f32 work",
            behind_runs!(lent(is_done, |l| touch32(l.work32))),
        ),
        on_both(
            "the first of the f64 work",
            behind_runs!(lent(is_done, |l| touch64(&mut l.work64[..1]))),
        ),
        on_both(
            "the last of the f64 work",
            behind_runs!(lent(is_done, |l| touch64(l.work64))),
        ),
    ];
    all_seen(plants.as_flattened());
}

fn on_faulty(what: &'static str, port: Exports) -> Plant {
    let kind = "faulty";
    Plant { what, kind, port }
}

#[test]
fn what_a_refusal_answers() {
    all_seen(&[
        on_faulty("place", behind_runs!(refused::<1>)),
        on_faulty("iterations", behind_runs!(refused::<2>)),
        on_faulty("stop", behind_runs!(refused::<7>)),
        on_faulty("the row in the answer alone", behind_runs!(refused::<0>)),
        on_faulty("the next row", behind_runs!(other_row)),
        on_faulty("taken", behind_runs!(taken)),
    ]);
}

#[test]
fn what_a_refusal_leaves() {
    all_seen(&[
        on_faulty(
            "a pose number written",
            behind_runs!(lent(is_refused, |l| touch64(l.out))),
        ),
        on_faulty(
            "a cost written",
            behind_runs!(lent(is_refused, |l| touch32(l.costs))),
        ),
        on_faulty(
            "f32 work written",
            behind_runs!(lent(is_refused, |l| touch32(l.work32))),
        ),
        on_faulty(
            "f64 work written",
            behind_runs!(lent(is_refused, |l| touch64(l.work64))),
        ),
    ]);
}

/// Rows 20 to 22 leave the needed work +0 and the output as found.
#[test]
fn what_a_refusal_in_the_run_leaves() {
    let on_wild = |what, port| Plant {
        what,
        kind: "wild",
        port,
    };
    all_seen(&[
        on_wild(
            "a pose number written",
            behind_runs!(lent(is_refused_in_the_run, |l| touch64(l.out))),
        ),
        on_wild(
            "f32 work not +0",
            behind_runs!(lent(is_refused_in_the_run, |l| touch32(&mut l.work32[..1]))),
        ),
        on_wild(
            "f64 work not +0",
            behind_runs!(lent(is_refused_in_the_run, |l| touch64(&mut l.work64[..1]))),
        ),
    ]);
}

/// Every other kind of graphs shows a bit of a pose number too.
#[test]
fn a_pose_number_of_every_kind() {
    let port = behind_runs!(lent(is_done, |l| bit64(l.out)));
    let what = "a bit of a pose number";
    let kinds = [
        "grid",
        "far",
        "wild",
        "samples",
        "limits",
        "large",
        "islands",
        "gravity-grid",
        "gravity-far",
        "gravity-wild",
        "gravity-large",
        "gravity-islands",
    ];
    all_seen(&kinds.map(|kind| Plant { what, kind, port }));
}

/// As the program runs it: the comparison as a whole fails by it, and holds without.
#[test]
fn a_planted_difference_fails_the_comparison() {
    let asked = Asked {
        count: 3,
        seed: 1,
        kind: Some("ring".into()),
        index: None,
    };
    let planted = behind_runs!(other_status);
    let [plain, changed] = [EXPORTS, planted].map(|port| compare(&asked, &kinds(), port));
    assert!(plain.holds() && plain.differing == 0);
    assert!(!changed.holds() && changed.differing == 3);
}
