//! The layers below a run, one input each with the answer it must get: numbers against the hardware, transforms
//! against the stand-ins, retraction, residual and solve against the original.

use kornia_algebra::{Mat3AF32, Vec3AF32, SE3F32, SO3F32};
use original_hooked as rust;

use crate::case::{pose, pose_numbers, transform, transform_numbers, vector};

#[derive(Clone, Debug)]
pub enum Layer {
    Narrow(f64),
    Sqrt32(f32),
    Sqrt64(f64),
    QuaternionOfMatrix([f32; 9]),
    Product([f32; 7], [f32; 7]),
    Inverse([f32; 7]),
    Exp([f32; 6]),
    Log([f32; 7]),
    Retract([f64; 12], [f32; 6]),
    RetractWithGravity([f64; 3], [f64; 12], [f32; 4]),
    Residual([f64; 12], [f64; 12], [f32; 8]),
    Solve(System),
}

/// A damped system in the work's layout: H(i,j), j ≤ i, at j·n+i; gradient at n·n+n+i; the rest is anything.
#[derive(Clone, Debug)]
pub struct System {
    pub n: usize,
    pub damping: f32,
    pub work: Vec<f32>,
}

/// Status (0 done, 1 fails) and the numbers written; where it fails the output stays as found.
#[derive(Clone, Debug)]
pub enum Outcome {
    Number32(f32),
    Number64(f64),
    Written32(Vec<f32>),
    Written64(Vec<f64>),
    Fails,
    /// The whole work after a solve, with its status.
    Work(u32, Vec<f32>),
}

pub const NAMES: [&str; 12] = [
    "narrow",
    "sqrt32",
    "sqrt64",
    "quaternion_of_matrix",
    "product",
    "inverse",
    "exp",
    "log",
    "retract",
    "retract_with_gravity",
    "residual",
    "solve",
];

impl Layer {
    pub fn outcome(&self) -> Outcome {
        match self {
            Layer::Narrow(x) => Outcome::Number32(*x as f32),
            Layer::Sqrt32(x) => Outcome::Number32(x.sqrt()),
            Layer::Sqrt64(x) => Outcome::Number64(x.sqrt()),
            Layer::QuaternionOfMatrix(m) => quaternion_outcome(m),
            Layer::Product(a, b) => written(&(transform(a) * transform(b))),
            Layer::Inverse(a) => written(&transform(a).inverse()),
            Layer::Exp(d) => SE3F32::checked_exp(d).map_or(Outcome::Fails, |t| written(&t)),
            Layer::Log(t) => log_outcome(t),
            Layer::Retract(p, d) => pose_outcome(rust::retract(&pose(p), d)),
            Layer::RetractWithGravity(g, p, d) => {
                pose_outcome(rust::retract_with_gravity(vector(g), &pose(p), d))
            }
            Layer::Residual(a, b, e) => residual_outcome(a, b, e),
            Layer::Solve(system) => system.outcome(),
        }
    }
}

fn written(t: &SE3F32) -> Outcome {
    Outcome::Written32(transform_numbers(t).to_vec())
}

fn quaternion_outcome(m: &[f32; 9]) -> Outcome {
    let column = |i: usize| Vec3AF32::new(m[i], m[i + 1], m[i + 2]);
    let q = SO3F32::from_matrix(&Mat3AF32::from_cols(column(0), column(3), column(6)));
    Outcome::Written32(vec![q.x, q.y, q.z, q.w])
}

fn log_outcome(t: &[f32; 7]) -> Outcome {
    let (t, r) = transform(t).log();
    Outcome::Written32(vec![t.x, t.y, t.z, r.x, r.y, r.z])
}

fn pose_outcome(result: Result<kornia_3d::pose::Pose3d, String>) -> Outcome {
    match result {
        Ok(pose) => Outcome::Written64(pose_numbers(&pose).to_vec()),
        Err(_) => Outcome::Fails,
    }
}

fn residual_outcome(a: &[f64; 12], b: &[f64; 12], edge: &[f32; 8]) -> Outcome {
    match rust::residual(&pose(a), &pose(b), &transform(edge), edge[7]) {
        Ok(residual) => Outcome::Written32(residual.to_vec()),
        Err(_) => Outcome::Fails,
    }
}

impl System {
    fn outcome(&self) -> Outcome {
        let n = self.n;
        let gradient = &self.work[n * n + n..n * n + 2 * n];
        let solved = rust::solve(gradient, self.damping, |i, j| self.work[j * n + i]);
        let mut work = self.cleared();
        match solved {
            Ok(step) => {
                work[n * n + 2 * n..].copy_from_slice(&step);
                Outcome::Work(0, work)
            }
            Err(_) => Outcome::Work(1, work),
        }
    }

    /// H and the gradient as found, all else +0.
    fn cleared(&self) -> Vec<f32> {
        let n = self.n;
        let is_kept = |at: usize| match at / n {
            column if column < n => at % n >= column,
            row => row == n + 1,
        };
        let keep = |(at, x): (usize, &f32)| if is_kept(at) { *x } else { 0.0 };
        self.work.iter().enumerate().map(keep).collect()
    }
}
