//! Slices of another length than named: 4294967295 comes back and nothing is changed.

use port::{Exports, UNFIT};
use restated::jobs::{write, Job};
use restated::samples::two_poses;
use restated::scan_inputs::along_a_line;

use crate::closing;
use crate::runs::inputs;
use crate::tally::Checked;

/// Outputs of any length, filled so that a change shows.
struct Outputs {
    f32s: Vec<f32>,
    f64s: Vec<f64>,
    u32s: Vec<u32>,
    u64s: Vec<u64>,
    bytes: Vec<u8>,
}

impl Outputs {
    fn new(f32s: usize, f64s: usize, u32s: usize) -> Self {
        Self {
            f32s: vec![-77.125; f32s],
            f64s: vec![-77.125; f64s],
            u32s: vec![77; u32s],
            u64s: Vec::new(),
            bytes: Vec::new(),
        }
    }

    /// What a reader or a writer of jobs is lent.
    fn of_jobs(u32s: usize, u64s: usize, bytes: usize) -> Self {
        Self {
            u64s: vec![77; u64s],
            bytes: vec![77; bytes],
            ..Self::new(0, 0, u32s)
        }
    }

    fn unchanged(&self) -> bool {
        self.f32s.iter().all(|x| *x == -77.125)
            && self.f64s.iter().all(|x| *x == -77.125)
            && self.u32s.iter().all(|x| *x == 77)
            && self.u64s.iter().all(|x| *x == 77)
            && self.bytes.iter().all(|x| *x == 77)
    }
}

/// A call that must be found unfit; a wrong length is `by` off.
struct Call {
    name: &'static str,
    status: u32,
    outputs: Outputs,
}

fn call(name: &'static str, outputs: Outputs, f: impl FnOnce(&mut Outputs) -> u32) -> Call {
    let mut outputs = outputs;
    let status = f(&mut outputs);
    Call {
        name,
        status,
        outputs,
    }
}

/// Lengths with each in turn one less or one more.
fn off<const N: usize>(right: [usize; N]) -> Vec<[usize; N]> {
    let each = |i: usize| {
        [right[i] - 1, right[i] + 1, 0].map(|wrong| {
            let mut lengths = right;
            lengths[i] = wrong;
            lengths
        })
    };
    (0..N).flat_map(each).collect()
}

pub fn check_lengths(port: &Exports) -> Checked {
    let mut calls = transforms(port);
    calls.extend(poses(port));
    calls.extend(solves(port));
    calls.extend(runs(port));
    calls.extend(decisions(port));
    calls.extend(assemblies(port));
    calls.extend(jobs_read(port));
    calls.extend(jobs_written(port));
    calls.extend(scans(port));
    calls.extend(texts(port));
    let bad = |c: &Call| c.status != UNFIT || !c.outputs.unchanged();
    let say = |c: Call| {
        format!(
            "{}: {} back, unchanged {}",
            c.name,
            c.status,
            c.outputs.unchanged()
        )
    };
    let input = format!("{} calls of unfit lengths", calls.len());
    let mut lines: Vec<String> = calls.into_iter().filter(bad).map(say).collect();
    lines.extend(empty_solve(port));
    Checked { lines, input }
}

fn empty_solve(port: &Exports) -> Option<String> {
    let status = (port.solve)(&mut [], 0, 1.0);
    (status != 0).then(|| format!("solve with n = 0: {status} back"))
}

fn transforms(port: &Exports) -> Vec<Call> {
    let n = [0.5f32; 16];
    let out = |length: usize| Outputs::new(length, 0, 0);
    let mut calls = Vec::new();
    for [a, o] in off([9, 4]) {
        calls.push(call("quaternion_of_matrix", out(o), |x| {
            (port.quaternion_of_matrix)(&n[..a], &mut x.f32s)
        }));
    }
    for [a, b, o] in off([7, 7, 7]) {
        calls.push(call("product", out(o), |x| {
            (port.product)(&n[..a], &n[..b], &mut x.f32s)
        }));
    }
    for [a, o] in off([7, 7]) {
        calls.push(call("inverse", out(o), |x| {
            (port.inverse)(&n[..a], &mut x.f32s)
        }));
    }
    for [a, o] in off([6, 7]) {
        calls.push(call("exp", out(o), |x| (port.exp)(&n[..a], &mut x.f32s)));
    }
    for [a, o] in off([7, 6]) {
        calls.push(call("log", out(o), |x| (port.log)(&n[..a], &mut x.f32s)));
    }
    calls
}

fn poses(port: &Exports) -> Vec<Call> {
    let (n, m) = ([0.5f32; 16], [0.5f64; 16]);
    let mut calls = Vec::new();
    for [p, d, o] in off([12, 6, 12]) {
        calls.push(call("retract", Outputs::new(0, o, 0), |x| {
            (port.retract)(&m[..p], &n[..d], &mut x.f64s)
        }));
    }
    for [g, p, d, o] in off([3, 12, 4, 12]) {
        calls.push(call("retract_with_gravity", Outputs::new(0, o, 0), |x| {
            (port.retract_with_gravity)(&m[..g], &m[..p], &n[..d], &mut x.f64s)
        }));
    }
    for [a, b, e, o] in off([12, 12, 8, 6]) {
        calls.push(call("residual", Outputs::new(o, 0, 0), |x| {
            (port.residual)(&m[..a], &m[..b], &n[..e], &mut x.f32s)
        }));
    }
    calls
}

fn solves(port: &Exports) -> Vec<Call> {
    let unfit = [
        (2, 9),
        (2, 11),
        (2, 0),
        (0, 1),
        (1, 3),
        (u32::MAX, 4),
        (65535, 4),
        (0x8000_0000, 0),
    ];
    let solve = |(n, length): (u32, usize)| {
        call("solve", Outputs::new(length, 0, 0), |x| {
            (port.solve)(&mut x.f32s, n, 1.0)
        })
    };
    unfit.into_iter().map(solve).collect()
}

fn runs(port: &Exports) -> Vec<Call> {
    let case = two_poses(1.5, 1.0);
    let mut calls = Vec::new();
    for [answer, costs] in off([8, 2]) {
        for gravity in [false, true] {
            let (mut work32, mut work64) = (vec![-77.125; case.work32], vec![-77.125; case.work64]);
            let outputs = Outputs::new(costs, case.out, answer);
            let made = call("optimize", outputs, |x| {
                let lent = port::Lent {
                    work32: &mut work32,
                    work64: &mut work64,
                    out: &mut x.f64s,
                    answer: &mut x.u32s,
                    costs: &mut x.f32s,
                };
                match gravity {
                    false => (port.optimize)(inputs(&case), lent),
                    true => (port.optimize_with_gravity)([0.0, 0.0, 1.0], inputs(&case), lent),
                }
            });
            calls.push(with_work(made, work32, work64));
        }
    }
    calls
}

/// The work counts among what must be unchanged.
fn with_work(mut made: Call, work32: Vec<f32>, work64: Vec<f64>) -> Call {
    made.outputs.f32s.extend(work32);
    made.outputs.f64s.extend(work64);
    made
}

fn decided(
    port: &Exports,
    name: &'static str,
    events: &[u32],
    [prices, answer, costs]: [usize; 3],
) -> Call {
    call(name, Outputs::new(costs, 0, answer), |x| {
        let decisions = port::Decisions {
            limit: 5,
            tolerance: 1e-6,
            cost: 1.0,
            damping: 1.0,
            events,
            prices: &[0.5; 4][..prices],
        };
        (port.decide)(decisions, &mut x.u32s, &mut x.f32s)
    })
}

fn decisions(port: &Exports) -> Vec<Call> {
    let lengths = off([2, 8, 2]).into_iter();
    let mut calls: Vec<Call> = lengths
        .map(|lengths| decided(port, "decide", &[4, 3], lengths))
        .collect();
    calls.push(decided(port, "decide: event 7", &[2, 7], [2, 8, 2]));
    calls.push(decided(
        port,
        "decide: event 4294967295",
        &[u32::MAX],
        [1, 8, 2],
    ));
    calls
}

fn assembled(port: &Exports, dof: u32, gravity: usize) -> Call {
    let case = two_poses(1.5, 1.0);
    call("assemble", Outputs::new(54, 0, 0), |x| {
        let inputs = port::Assembly {
            dof,
            gravity: &[1.0; 4][..gravity],
            poses: &case.poses,
            ends: &case.ends,
            edges: &case.edges,
            fixed: &case.fixed,
        };
        (port.assemble)(inputs, &mut x.f32s)
    })
}

fn assemblies(port: &Exports) -> Vec<Call> {
    let unfit = [
        (6, 2),
        (6, 4),
        (6, 0),
        (4, 2),
        (4, 4),
        (0, 3),
        (1, 3),
        (5, 3),
        (7, 3),
        (u32::MAX, 3),
    ];
    unfit
        .into_iter()
        .map(|(dof, gravity)| assembled(port, dof, gravity))
        .collect()
}

/// The job of the two-pose sample, and its bytes.
fn sample_job() -> (Job, Vec<u8>) {
    let job = Job::of(&two_poses(1.0, 1.0));
    let bytes = write(&job);
    (job, bytes)
}

/// Good jobs and cut ones, read with an answer that is not 8 long.
fn jobs_read(port: &Exports) -> Vec<Call> {
    let (_, bytes) = sample_job();
    let mut calls = Vec::new();
    for [answer] in off([8]) {
        for length in [0, 100, bytes.len()] {
            let outputs = Outputs::of_jobs(2 + 8 + 1 + answer, 24, 0);
            calls.push(call("read_job", outputs, |x| {
                let (ends, rest) = x.u32s.split_at_mut(2);
                let (edges, rest) = rest.split_at_mut(8);
                let (fixed, answer) = rest.split_at_mut(1);
                let room = port::JobRoom {
                    poses: &mut x.u64s,
                    ends,
                    edges,
                    fixed,
                };
                (port.read_job)(&bytes[..length], room, answer)
            }));
        }
    }
    calls
}

/// Outputs that are long enough and not, written with an answer that is not 2 long.
fn jobs_written(port: &Exports) -> Vec<Call> {
    let (job, bytes) = sample_job();
    let mut calls = Vec::new();
    for [answer] in off([2]) {
        for (poses, out) in [(24, bytes.len()), (24, 9), (23, bytes.len())] {
            let outputs = Outputs::of_jobs(answer, 0, out);
            calls.push(call("write_job", outputs, |x| {
                let job = port::Job {
                    settings: job.settings,
                    poses: &job.poses[..poses],
                    ends: &job.ends,
                    edges: &job.edges,
                    fixed: &job.fixed,
                };
                (port.write_job)(job, &mut x.bytes, &mut x.u32s)
            }));
        }
    }
    calls
}

/// Good scans, with answer, costs or measures of another length, or gravity of neither 0 nor 3 numbers.
fn scans(port: &Exports) -> Vec<Call> {
    let lengths = off([9, 2, 4]).into_iter().map(|wrong| (3, wrong));
    let gravity = [1, 2, 4].map(|wrong| (wrong, [9, 2, 4]));
    let scan = along_a_line(&[1, 2, 3], &[(1, 3)]);
    let closed = |(gravity, [answer, costs, measures]): (usize, [usize; 3])| {
        let f64s = scan.work64 + scan.original + scan.out + measures;
        let outputs = Outputs::new(scan.work32 + costs, f64s, answer);
        call("close_loops", outputs, |x| {
            let (work32, costs) = x.f32s.split_at_mut(scan.work32);
            let (work64, rest) = x.f64s.split_at_mut(scan.work64);
            let (original, rest) = rest.split_at_mut(scan.original);
            let (out, measures) = rest.split_at_mut(scan.out);
            let lent = port::Lent {
                work32,
                work64,
                out,
                answer: &mut x.u32s,
                costs,
            };
            let given = port::Scan {
                gravity: &[1.0; 4][..gravity],
                ..closing::inputs(&scan)
            };
            (port.close_loops)(given, lent, original, measures)
        })
    };
    lengths.chain(gravity).map(closed).collect()
}

fn texts(port: &Exports) -> Vec<Call> {
    let text = |[length]: [usize; 1]| {
        call("float_text", Outputs::of_jobs(0, 0, length), |x| {
            (port.float_text)(0.5, &mut x.bytes)
        })
    };
    off([16]).into_iter().map(text).collect()
}
