//! The layers: the lowest bit of a number of each, and an output that a failing call wrote.

use port::{Exports, EXPORTS};

use crate::plant::{all_seen, bit32, bit64, touch32, touch64, Plant};

/// The port with a change behind one function: status and output in.
macro_rules! behind {
    ($name:ident($($input:ident),*), $change:expr) => {
        Exports {
            $name: |$($input,)* out| {
                let status = port::$name($($input,)* out);
                ($change)(status, out);
                status
            },
            ..EXPORTS
        }
    };
}

fn on(kind: &'static str, port: Exports) -> Plant {
    let what = "a layer's number";
    Plant { what, kind, port }
}

fn done32(status: u32, out: &mut [f32]) {
    if status == 0 {
        bit32(out);
    }
}

fn done64(status: u32, out: &mut [f64]) {
    if status == 0 {
        bit64(out);
    }
}

fn failed32(status: u32, out: &mut [f32]) {
    if status == 1 {
        touch32(out);
    }
}

fn failed64(status: u32, out: &mut [f64]) {
    if status == 1 {
        touch64(out);
    }
}

fn changed32(mut x: f32) -> f32 {
    bit32(std::slice::from_mut(&mut x));
    x
}

fn changed64(mut x: f64) -> f64 {
    bit64(std::slice::from_mut(&mut x));
    x
}

#[test]
fn numbers() {
    let narrow = Exports {
        narrow: |x| changed32(port::narrow(x)),
        ..EXPORTS
    };
    let sqrt32 = Exports {
        sqrt32: |x| changed32(port::sqrt32(x)),
        ..EXPORTS
    };
    let sqrt64 = Exports {
        sqrt64: |x| changed64(port::sqrt64(x)),
        ..EXPORTS
    };
    all_seen(&[
        on("narrow", narrow),
        on("sqrt32", sqrt32),
        on("sqrt64", sqrt64),
    ]);
}

#[test]
fn transforms_and_poses() {
    all_seen(&[
        on(
            "quaternion_of_matrix",
            behind!(quaternion_of_matrix(m), done32),
        ),
        on("product", behind!(product(a, b), done32)),
        on("inverse", behind!(inverse(a), done32)),
        on("exp", behind!(exp(d), done32)),
        on("log", behind!(log(t), done32)),
        on("retract", behind!(retract(p, d), done64)),
        on(
            "retract_with_gravity",
            behind!(retract_with_gravity(g, p, d), done64),
        ),
        on("residual", behind!(residual(a, b, e), done32)),
    ]);
}

#[test]
fn failing_ones_that_write() {
    all_seen(&[
        on("exp", behind!(exp(d), failed32)),
        on("retract", behind!(retract(p, d), failed64)),
        on("residual", behind!(residual(a, b, e), failed32)),
    ]);
}

#[test]
fn solves() {
    let work = Exports {
        solve: |work, n, damping| {
            let status = port::solve(work, n, damping);
            bit32(work);
            status
        },
        ..EXPORTS
    };
    let status = Exports {
        solve: |work, n, damping| {
            crate::plant::planted();
            port::solve(work, n, damping) ^ 1
        },
        ..EXPORTS
    };
    all_seen(&[on("solve", work), on("solve", status)]);
}
