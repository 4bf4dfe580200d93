//! The layers below a run: each export on numbers against its expected outcome, bit for bit.

use port::Exports;
use restated::layer_inputs::layer;
use restated::layers::{Layer, Outcome, System};
use restated::random::Random;
use restated::{all_same32, all_same64, same32, same64};

use crate::tally::Checked;

/// What stands in an output beforehand.
const FOUND32: f32 = -77.125;
const FOUND64: f64 = -77.125;

pub fn check_layer(port: &Exports, random: &mut Random, number: usize) -> Checked {
    let layer = layer(random, number);
    let (expected, got) = (layer.outcome(), port_outcome(port, &layer));
    let lines = if same(&expected, &got) {
        Vec::new()
    } else {
        vec![format!("port {got:?}, expected {expected:?}")]
    };
    Checked {
        lines,
        input: format!("{layer:?}"),
    }
}

fn same(a: &Outcome, b: &Outcome) -> bool {
    match (a, b) {
        (Outcome::Number32(a), Outcome::Number32(b)) => same32(*a, *b),
        (Outcome::Number64(a), Outcome::Number64(b)) => same64(*a, *b),
        (Outcome::Written32(a), Outcome::Written32(b)) => all_same32(a, b),
        (Outcome::Written64(a), Outcome::Written64(b)) => all_same64(a, b),
        (Outcome::Fails, Outcome::Fails) => true,
        (Outcome::Work(s, a), Outcome::Work(t, b)) => s == t && all_same32(a, b),
        _ => false,
    }
}

fn port_outcome(port: &Exports, layer: &Layer) -> Outcome {
    match layer {
        Layer::Narrow(x) => Outcome::Number32((port.narrow)(*x)),
        Layer::Sqrt32(x) => Outcome::Number32((port.sqrt32)(*x)),
        Layer::Sqrt64(x) => Outcome::Number64((port.sqrt64)(*x)),
        Layer::QuaternionOfMatrix(m) => written32::<4>(|out| (port.quaternion_of_matrix)(m, out)),
        Layer::Product(a, b) => written32::<7>(|out| (port.product)(a, b, out)),
        Layer::Inverse(a) => written32::<7>(|out| (port.inverse)(a, out)),
        Layer::Exp(d) => written32::<7>(|out| (port.exp)(d, out)),
        Layer::Log(t) => written32::<6>(|out| (port.log)(t, out)),
        Layer::Retract(p, d) => written64(|out| (port.retract)(p, d, out)),
        Layer::RetractWithGravity(g, p, d) => {
            written64(|out| (port.retract_with_gravity)(g, p, d, out))
        }
        Layer::Residual(a, b, e) => written32::<6>(|out| (port.residual)(a, b, e, out)),
        Layer::Solve(system) => solved(port, system),
    }
}

/// An output that was written where the call failed, or any other status, comes out as written: a difference.
fn written32<const N: usize>(call: impl FnOnce(&mut [f32]) -> u32) -> Outcome {
    let mut out = [FOUND32; N];
    match call(&mut out) {
        0 => Outcome::Written32(out.to_vec()),
        1 if all_same32(&out, &[FOUND32; N]) => Outcome::Fails,
        status => Outcome::Work(status, out.to_vec()),
    }
}

fn written64(call: impl FnOnce(&mut [f64]) -> u32) -> Outcome {
    let mut out = [FOUND64; 12];
    match call(&mut out) {
        0 => Outcome::Written64(out.to_vec()),
        1 if all_same64(&out, &[FOUND64; 12]) => Outcome::Fails,
        status => Outcome::Work(status, out.map(|x| x as f32).to_vec()),
    }
}

fn solved(port: &Exports, system: &System) -> Outcome {
    let mut work = system.work.clone();
    let status = (port.solve)(&mut work, system.n as u32, system.damping);
    Outcome::Work(status, work)
}
