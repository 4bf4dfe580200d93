//! All functions of this crate as one table, so that a test of the comparison can put a changed one in the place of one.

use crate::{Assembly, Decisions, Inputs, Job, JobRoom, Lent, Scan};

type Unary32 = fn(&[f32], &mut [f32]) -> u32;
type Binary32 = fn(&[f32], &[f32], &mut [f32]) -> u32;
type OfPoses<Out> = fn(&[f64], &[f64], &[f32], &mut [Out]) -> u32;

#[derive(Copy, Clone)]
pub struct Exports {
    pub optimize: fn(Inputs, Lent) -> u32,
    pub optimize_with_gravity: fn([f64; 3], Inputs, Lent) -> u32,
    pub decide: fn(Decisions, &mut [u32], &mut [f32]) -> u32,
    pub narrow: fn(f64) -> f32,
    pub sqrt32: fn(f32) -> f32,
    pub sqrt64: fn(f64) -> f64,
    pub quaternion_of_matrix: Unary32,
    pub product: Binary32,
    pub inverse: Unary32,
    pub exp: Unary32,
    pub log: Unary32,
    pub retract: fn(&[f64], &[f32], &mut [f64]) -> u32,
    pub retract_with_gravity: OfPoses<f64>,
    pub residual: OfPoses<f32>,
    pub solve: fn(&mut [f32], u32, f32) -> u32,
    pub assemble: fn(Assembly, &mut [f32]) -> u32,
    pub read_job: fn(&[u8], JobRoom, &mut [u32]) -> u32,
    pub write_job: fn(Job, &mut [u8], &mut [u32]) -> u32,
    pub close_loops: fn(Scan, Lent, &mut [f64], &mut [f64]) -> u32,
    pub float_text: fn(f64, &mut [u8]) -> u32,
}

/// The port as it is.
pub const EXPORTS: Exports = Exports {
    optimize: crate::optimize,
    optimize_with_gravity: crate::optimize_with_gravity,
    decide: crate::decide,
    narrow: crate::narrow,
    sqrt32: crate::sqrt32,
    sqrt64: crate::sqrt64,
    quaternion_of_matrix: crate::quaternion_of_matrix,
    product: crate::product,
    inverse: crate::inverse,
    exp: crate::exp,
    log: crate::log,
    retract: crate::retract,
    retract_with_gravity: crate::retract_with_gravity,
    residual: crate::residual,
    solve: crate::solve,
    assemble: crate::assemble,
    read_job: crate::read_job,
    write_job: crate::write_job,
    close_loops: crate::close_loops,
    float_text: crate::float_text,
};
