//! Scans: what a closing adds to a run, the verdict, the measures and the original poses.

use port::{Exports, Lent, EXPORTS};

use crate::plant::{all_seen, bit64, flip, planted, touch64, Plant};

/// What a closing writes.
struct Closed<'a, 'b> {
    lent: &'a mut Lent<'b>,
    original: &'a mut [f64],
    measures: &'a mut [f64],
}

/// The port with a change behind the closing of loops.
macro_rules! behind_closing {
    ($change:expr) => {
        Exports {
            close_loops: |scan, mut lent, original, measures| {
                let status = port::close_loops(scan, lent.again(), original, measures);
                let lent = &mut lent;
                ($change)(
                    status,
                    Closed {
                        lent,
                        original,
                        measures,
                    },
                );
                status
            },
            ..EXPORTS
        }
    };
}

fn ended(change: fn(Closed)) -> impl Fn(u32, Closed) {
    move |status, closed| {
        if status == 0 {
            change(closed)
        }
    }
}

fn refused(change: fn(Closed)) -> impl Fn(u32, Closed) {
    move |status, closed| {
        if status != 0 {
            change(closed)
        }
    }
}

fn on(kind: &'static str, what: &'static str, port: Exports) -> Plant {
    Plant { what, kind, port }
}

#[test]
fn what_a_closing_answers() {
    let usable = behind_closing!(ended(|c| flip(c.lent.answer.get_mut(8))));
    let usable_refused = behind_closing!(refused(|c| flip(c.lent.answer.get_mut(8))));
    let place = behind_closing!(refused(|c| flip(c.lent.answer.get_mut(1))));
    let pose = behind_closing!(ended(|c| bit64(c.lent.out)));
    let measure = behind_closing!(ended(|c| bit64(c.measures)));
    let copied = behind_closing!(ended(|c| touch64(c.original)));
    all_seen(&[
        on("closing", "usable", usable),
        on("closing-short", "usable", usable),
        on("closing-tipped", "usable", usable),
        on("closing-settled", "usable", usable),
        on("closing-worse", "usable", usable),
        on("closing-faults", "usable", usable_refused),
        on("closing-faults", "place", place),
        on("closing-ids", "place", place),
        on("closing-still", "a bit of a pose number", pose),
        on("closing-large", "a bit of a pose number", pose),
        on("closing-wild", "a bit of a measure", measure),
        on("closing", "a bit of an original pose", copied),
    ]);
}

#[test]
fn what_a_refused_closing_leaves() {
    let measure = behind_closing!(refused(|c| touch64(c.measures)));
    let original = behind_closing!(refused(|c| touch64(c.original)));
    let pose = behind_closing!(refused(|c| touch64(c.lent.out)));
    let work = behind_closing!(refused(|c| touch64(c.lent.work64)));
    all_seen(&[
        on("closing-faults", "a measure written", measure),
        on("closing-faults", "the original poses written", original),
        on("closing-faults", "a pose number written", pose),
        on("closing-faults", "f64 work written", work),
    ]);
}

/// A run on the built graph that ends otherwise than the closing did.
#[test]
fn the_run_beside_a_closing() {
    let port = Exports {
        optimize: |inputs, mut lent| {
            let status = port::optimize(inputs, lent.again());
            lent.answer[2] += 1;
            planted();
            status
        },
        ..EXPORTS
    };
    all_seen(&[on("closing", "iterations of the run beside", port)]);
}
