//! Assembly alone, the decisions alone, and slices of unfit length.

use port::{Assembly, Exports, EXPORTS};

use crate::plant::{all_seen, bit32, flip, planted, touch32, Plant};

fn on(kind: &'static str, what: &'static str, port: Exports) -> Plant {
    Plant { what, kind, port }
}

/// The port with a change behind assembly: inputs, status and work in.
macro_rules! behind_assembly {
    ($change:expr) => {
        Exports {
            assemble: |inputs, work| {
                let status = port::assemble(inputs, work);
                ($change)(inputs, status, work);
                status
            },
            ..EXPORTS
        }
    };
}

/// n, the unknowns of a graph that was taken: of poses that an edge names and that are not fixed.
fn unknowns(inputs: Assembly) -> usize {
    let poses = 0..inputs.poses.len() as u32 / 12;
    let free = |pose: &u32| inputs.ends.contains(pose) && !inputs.fixed.contains(pose);
    poses.filter(free).count() * inputs.dof as usize
}

/// The last entry of the Hessian's diagonal.
fn hessian_entry(inputs: Assembly, status: u32, work: &mut [f32]) {
    if status == 0 {
        let n = unknowns(inputs);
        bit32(&mut work[n * n - 1..n * n]);
    }
}

fn gradient_entry(inputs: Assembly, status: u32, work: &mut [f32]) {
    if status == 0 {
        let n = unknowns(inputs);
        bit32(&mut work[n * n + n..n * n + n + 1]);
    }
}

fn refused_work(_: Assembly, status: u32, work: &mut [f32]) {
    if status != 0 {
        touch32(work);
    }
}

#[test]
fn assembly() {
    let status = Exports {
        assemble: |inputs, work| {
            planted();
            port::assemble(inputs, work) ^ 1
        },
        ..EXPORTS
    };
    all_seen(&[
        on(
            "assembly",
            "an entry of the Hessian",
            behind_assembly!(hessian_entry),
        ),
        on(
            "assembly",
            "an entry of the gradient",
            behind_assembly!(gradient_entry),
        ),
        on(
            "assembly-faulty",
            "the work of a refusal",
            behind_assembly!(refused_work),
        ),
        on("assembly", "what comes back", status),
    ]);
}

/// The lowest bit of one number of the decisions' answer, where it is written.
fn decided<const AT: usize>(status: u32, answer: &mut [u32], _: &mut [f32]) {
    if status == 0 {
        flip(answer.get_mut(AT));
    }
}

fn decided_costs(_: u32, _: &mut [u32], costs: &mut [f32]) {
    bit32(costs);
}

macro_rules! behind_decisions {
    ($change:expr) => {
        Exports {
            decide: |decisions, answer, costs| {
                let status = port::decide(decisions, answer, costs);
                ($change)(status, answer, costs);
                status
            },
            ..EXPORTS
        }
    };
}

#[test]
fn decisions() {
    let stop = behind_decisions!(decided::<7>);
    all_seen(&[
        on("decide", "stop", stop),
        on("hooks", "stop", stop),
        on("ring", "stop of the run's list", stop),
        on("decide", "A", behind_decisions!(decided::<4>)),
        on("decide", "a cost", behind_decisions!(decided_costs)),
    ]);
}

/// Unfit lengths: taken, or refused with something written.
#[test]
fn lengths() {
    let taken = Exports {
        float_text: |x, out| {
            planted();
            port::float_text(x, out) & 15
        },
        ..EXPORTS
    };
    let written = Exports {
        product: |a, b, out| {
            let status = port::product(a, b, out);
            touch32(out);
            status
        },
        ..EXPORTS
    };
    all_seen(&[
        on("lengths", "an unfit length taken", taken),
        on("lengths", "an unfit length written", written),
    ]);
}
