//! The port's exported functions behind safe ones: a slice crosses as pointer and length, a number as itself.
//! The exports assume nothing of lengths, so the wrappers test none.

mod ffi;
mod table;

pub use table::{Exports, EXPORTS};

/// What comes back for a slice of another length than named, with nothing changed.
pub const UNFIT: u32 = u32::MAX;

/// What a run reads.
#[derive(Copy, Clone)]
pub struct Inputs<'a> {
    pub poses: &'a [f64],
    pub ends: &'a [u32],
    pub edges: &'a [f32],
    pub fixed: &'a [u32],
    pub limit: u32,
    pub cost_tolerance: f32,
    pub gradient_tolerance: f32,
    pub damping: f32,
}

/// What a run writes.
pub struct Lent<'a> {
    pub work32: &'a mut [f32],
    pub work64: &'a mut [f64],
    pub out: &'a mut [f64],
    pub answer: &'a mut [u32],
    pub costs: &'a mut [f32],
}

impl Lent<'_> {
    /// The same, lent on.
    pub fn again(&mut self) -> Lent<'_> {
        Lent {
            work32: self.work32,
            work64: self.work64,
            out: self.out,
            answer: self.answer,
            costs: self.costs,
        }
    }
}

/// The slices as pointer and length, one after the other.
macro_rules! lend {
    ($call:path [$($before:expr),*] $i:ident $l:ident) => {
        // SAFETY: every pointer comes with its slice's own length, and the slices live through the call.
        unsafe {
            $call(
                $($before,)*
                $i.poses.as_ptr(), $i.poses.len(),
                $i.ends.as_ptr(), $i.ends.len(),
                $i.edges.as_ptr(), $i.edges.len(),
                $i.fixed.as_ptr(), $i.fixed.len(),
                $i.limit, $i.cost_tolerance, $i.gradient_tolerance, $i.damping,
                $l.work32.as_mut_ptr(), $l.work32.len(),
                $l.work64.as_mut_ptr(), $l.work64.len(),
                $l.out.as_mut_ptr(), $l.out.len(),
                $l.answer.as_mut_ptr(), $l.answer.len(),
                $l.costs.as_mut_ptr(), $l.costs.len(),
            )
        }
    };
}

pub fn optimize(i: Inputs, l: Lent) -> u32 {
    lend!(ffi::pgo_optimize [] i l)
}

pub fn optimize_with_gravity(g: [f64; 3], i: Inputs, l: Lent) -> u32 {
    lend!(ffi::pgo_optimize_with_gravity [g[0], g[1], g[2]] i l)
}

/// A prepared list and the settings it is decided under.
#[derive(Copy, Clone)]
pub struct Decisions<'a> {
    pub limit: u32,
    pub tolerance: f32,
    pub cost: f32,
    pub damping: f32,
    pub events: &'a [u32],
    pub prices: &'a [f32],
}

pub fn decide(d: Decisions, answer: &mut [u32], costs: &mut [f32]) -> u32 {
    // SAFETY: every pointer comes with its slice's own length.
    unsafe {
        ffi::pgo_decide(
            d.limit,
            d.tolerance,
            d.cost,
            d.damping,
            d.events.as_ptr(),
            d.events.len(),
            d.prices.as_ptr(),
            d.prices.len(),
            answer.as_mut_ptr(),
            answer.len(),
            costs.as_mut_ptr(),
            costs.len(),
        )
    }
}

pub fn narrow(x: f64) -> f32 {
    // SAFETY: numbers only.
    unsafe { ffi::pgo_narrow(x) }
}

pub fn sqrt32(x: f32) -> f32 {
    // SAFETY: numbers only.
    unsafe { ffi::pgo_sqrt32(x) }
}

pub fn sqrt64(x: f64) -> f64 {
    // SAFETY: numbers only.
    unsafe { ffi::pgo_sqrt64(x) }
}

pub fn quaternion_of_matrix(m: &[f32], out: &mut [f32]) -> u32 {
    // SAFETY: every pointer comes with its slice's own length.
    unsafe { ffi::pgo_quaternion_of_matrix(m.as_ptr(), m.len(), out.as_mut_ptr(), out.len()) }
}

pub fn product(a: &[f32], b: &[f32], out: &mut [f32]) -> u32 {
    // SAFETY: every pointer comes with its slice's own length.
    unsafe {
        ffi::pgo_product(
            a.as_ptr(),
            a.len(),
            b.as_ptr(),
            b.len(),
            out.as_mut_ptr(),
            out.len(),
        )
    }
}

pub fn inverse(a: &[f32], out: &mut [f32]) -> u32 {
    // SAFETY: every pointer comes with its slice's own length.
    unsafe { ffi::pgo_inverse(a.as_ptr(), a.len(), out.as_mut_ptr(), out.len()) }
}

pub fn exp(delta: &[f32], out: &mut [f32]) -> u32 {
    // SAFETY: every pointer comes with its slice's own length.
    unsafe { ffi::pgo_exp(delta.as_ptr(), delta.len(), out.as_mut_ptr(), out.len()) }
}

pub fn log(t: &[f32], out: &mut [f32]) -> u32 {
    // SAFETY: every pointer comes with its slice's own length.
    unsafe { ffi::pgo_log(t.as_ptr(), t.len(), out.as_mut_ptr(), out.len()) }
}

pub fn retract(pose: &[f64], delta: &[f32], out: &mut [f64]) -> u32 {
    // SAFETY: every pointer comes with its slice's own length.
    unsafe {
        ffi::pgo_retract(
            pose.as_ptr(),
            pose.len(),
            delta.as_ptr(),
            delta.len(),
            out.as_mut_ptr(),
            out.len(),
        )
    }
}

pub fn retract_with_gravity(g: &[f64], pose: &[f64], delta: &[f32], out: &mut [f64]) -> u32 {
    // SAFETY: every pointer comes with its slice's own length.
    unsafe {
        ffi::pgo_retract_with_gravity(
            g.as_ptr(),
            g.len(),
            pose.as_ptr(),
            pose.len(),
            delta.as_ptr(),
            delta.len(),
            out.as_mut_ptr(),
            out.len(),
        )
    }
}

pub fn residual(a: &[f64], b: &[f64], edge: &[f32], out: &mut [f32]) -> u32 {
    // SAFETY: every pointer comes with its slice's own length.
    unsafe {
        ffi::pgo_residual(
            a.as_ptr(),
            a.len(),
            b.as_ptr(),
            b.len(),
            edge.as_ptr(),
            edge.len(),
            out.as_mut_ptr(),
            out.len(),
        )
    }
}

pub fn solve(work: &mut [f32], n: u32, damping: f32) -> u32 {
    // SAFETY: the pointer comes with its slice's own length.
    unsafe { ffi::pgo_solve(work.as_mut_ptr(), work.len(), n, damping) }
}

/// What assembly reads.
#[derive(Copy, Clone)]
pub struct Assembly<'a> {
    pub dof: u32,
    pub gravity: &'a [f64],
    pub poses: &'a [f64],
    pub ends: &'a [u32],
    pub edges: &'a [f32],
    pub fixed: &'a [u32],
}

pub fn assemble(a: Assembly, work: &mut [f32]) -> u32 {
    // SAFETY: every pointer comes with its slice's own length.
    unsafe {
        ffi::pgo_assemble(
            a.dof,
            a.gravity.as_ptr(),
            a.gravity.len(),
            a.poses.as_ptr(),
            a.poses.len(),
            a.ends.as_ptr(),
            a.ends.len(),
            a.edges.as_ptr(),
            a.edges.len(),
            a.fixed.as_ptr(),
            a.fixed.len(),
            work.as_mut_ptr(),
            work.len(),
        )
    }
}

/// What the reader of job files fills; floats are their bits.
pub struct JobRoom<'a> {
    pub poses: &'a mut [u64],
    pub ends: &'a mut [u32],
    pub edges: &'a mut [u32],
    pub fixed: &'a mut [u32],
}

impl JobRoom<'_> {
    /// The same, lent on.
    pub fn again(&mut self) -> JobRoom<'_> {
        JobRoom {
            poses: self.poses,
            ends: self.ends,
            edges: self.edges,
            fixed: self.fixed,
        }
    }
}

pub fn read_job(bytes: &[u8], room: JobRoom, answer: &mut [u32]) -> u32 {
    // SAFETY: every pointer comes with its slice's own length.
    unsafe {
        ffi::pgo_read_job(
            bytes.as_ptr(),
            bytes.len(),
            room.poses.as_mut_ptr(),
            room.poses.len(),
            room.ends.as_mut_ptr(),
            room.ends.len(),
            room.edges.as_mut_ptr(),
            room.edges.len(),
            room.fixed.as_mut_ptr(),
            room.fixed.len(),
            answer.as_mut_ptr(),
            answer.len(),
        )
    }
}

/// What the writer of job files reads: limit, cost tolerance, gradient tolerance and damping, then
/// the graph; floats are their bits.
#[derive(Copy, Clone)]
pub struct Job<'a> {
    pub settings: [u32; 4],
    pub poses: &'a [u64],
    pub ends: &'a [u32],
    pub edges: &'a [u32],
    pub fixed: &'a [u32],
}

pub fn write_job(job: Job, out: &mut [u8], answer: &mut [u32]) -> u32 {
    let [limit, cost_tolerance, gradient_tolerance, damping] = job.settings;
    // SAFETY: every pointer comes with its slice's own length.
    unsafe {
        ffi::pgo_write_job(
            limit,
            cost_tolerance,
            gradient_tolerance,
            damping,
            job.poses.as_ptr(),
            job.poses.len(),
            job.ends.as_ptr(),
            job.ends.len(),
            job.edges.as_ptr(),
            job.edges.len(),
            job.fixed.as_ptr(),
            job.fixed.len(),
            out.as_mut_ptr(),
            out.len(),
            answer.as_mut_ptr(),
            answer.len(),
        )
    }
}

/// What the closing of loops reads; gravity is empty or three numbers.
#[derive(Copy, Clone)]
pub struct Scan<'a> {
    pub ids: &'a [u32],
    pub poses: &'a [f64],
    pub loops: &'a [u32],
    pub loop_poses: &'a [f64],
    pub weight: f32,
    pub gravity: &'a [f64],
    pub limit: u32,
    pub cost_tolerance: f32,
    pub gradient_tolerance: f32,
    pub damping: f32,
}

/// Writes what a run writes, the original poses and the four measures.
pub fn close_loops(s: Scan, l: Lent, original: &mut [f64], measures: &mut [f64]) -> u32 {
    // SAFETY: every pointer comes with its slice's own length.
    unsafe {
        ffi::pgo_close_loops(
            s.ids.as_ptr(),
            s.ids.len(),
            s.poses.as_ptr(),
            s.poses.len(),
            s.loops.as_ptr(),
            s.loops.len(),
            s.loop_poses.as_ptr(),
            s.loop_poses.len(),
            s.weight,
            s.gravity.as_ptr(),
            s.gravity.len(),
            s.limit,
            s.cost_tolerance,
            s.gradient_tolerance,
            s.damping,
            l.work32.as_mut_ptr(),
            l.work32.len(),
            l.work64.as_mut_ptr(),
            l.work64.len(),
            original.as_mut_ptr(),
            original.len(),
            l.out.as_mut_ptr(),
            l.out.len(),
            l.answer.as_mut_ptr(),
            l.answer.len(),
            l.costs.as_mut_ptr(),
            l.costs.len(),
            measures.as_mut_ptr(),
            measures.len(),
        )
    }
}

/// Gives back how many bytes of the start of `out` are the number's text.
pub fn float_text(x: f64, out: &mut [u8]) -> u32 {
    // SAFETY: the pointer comes with its slice's own length.
    unsafe { ffi::pgo_float_text(x, out.as_mut_ptr(), out.len()) }
}
