//! A door to sparse_pgo.rs: a child module, so that it sees the private items, giving back plain values.
//! Errors come out as the original's own text.

use super::*;

/// A manifold as a caller names it: none for DOF 6, gravity as given for DOF 4.
pub type Gravity = Option<Vec3F64>;

pub struct Finished {
    pub poses: Vec<Pose3d>,
    pub iterations: usize,
    pub converged: bool,
}

/// Poses, edges and fixed poses of one graph.
#[derive(Copy, Clone)]
pub struct Graph<'a> {
    pub poses: &'a [Pose3d],
    pub edges: &'a [PgoEdge],
    pub fixed: &'a [usize],
}

/// A normal system of either DOF.
pub struct System(Inner);

enum Inner {
    Se3(NormalSystem<6>),
    Gravity(NormalSystem<4>),
}

fn text(error: SparsePgoError) -> String {
    error.to_string()
}

fn finished(result: SparsePgoResult) -> Finished {
    Finished {
        poses: result.poses,
        iterations: result.iterations,
        converged: result.converged,
    }
}

/// The whole run.
pub fn optimize(gravity: Gravity, g: Graph, params: &PgoParams) -> Result<Finished, String> {
    let result = match gravity {
        None => sparse_pose_graph_optimize(g.poses, g.edges, g.fixed, params, &Se3Manifold),
        Some(axis) => {
            let manifold = GravityManifold::new(axis).map_err(text)?;
            sparse_pose_graph_optimize(g.poses, g.edges, g.fixed, params, &manifold)
        }
    };
    result.map(finished).map_err(text)
}

/// Unit gravity, or the original's refusal.
pub fn unit_gravity(axis: Vec3F64) -> Result<Vec3F64, String> {
    normalized_gravity(axis).map_err(text)
}

/// The checks on a graph alone: each pose's block.
pub fn blocks(g: Graph) -> Result<Vec<Option<usize>>, String> {
    validate_pose_graph(g.poses, g.edges, g.fixed).map_err(text)
}

/// The checks before a run: each pose's block.
pub fn checked(g: Graph, params: &PgoParams) -> Result<Vec<Option<usize>>, String> {
    validate_optimizer_inputs(g.poses, g.edges, g.fixed, params).map_err(text)
}

pub fn cost(poses: &[Pose3d], edges: &[PgoEdge], blocks: &[Option<usize>]) -> Result<f32, String> {
    active_total_squared_residual_cost(poses, edges, blocks).map_err(text)
}

pub fn residual(
    a: &Pose3d,
    b: &Pose3d,
    measured: &SE3F32,
    weight: f32,
) -> Result<[f32; 6], String> {
    weighted_relative_residual(a, b, measured, weight).map_err(text)
}

pub fn retract(pose: &Pose3d, delta: &[f32; 6]) -> Result<Pose3d, String> {
    Se3Manifold.retract(pose, delta).map_err(text)
}

/// Retraction with the axis as given, not made a unit vector.
pub fn retract_with_gravity(
    gravity_axis: Vec3F64,
    pose: &Pose3d,
    delta: &[f32; 4],
) -> Result<Pose3d, String> {
    let manifold = GravityManifold { gravity_axis };
    manifold.retract(pose, delta).map_err(text)
}

/// Jacobians, gradient and Hessian at the given poses.
pub fn assemble(
    gravity: Gravity,
    poses: &[Pose3d],
    edges: &[PgoEdge],
    blocks: &[Option<usize>],
) -> Result<System, String> {
    match gravity {
        None => build_normal_system_with_mapping(poses, edges, blocks, &Se3Manifold)
            .map(|normal| System(Inner::Se3(normal))),
        Some(axis) => {
            let manifold = GravityManifold::new(axis).map_err(text)?;
            build_normal_system_with_mapping(poses, edges, blocks, &manifold)
                .map(|normal| System(Inner::Gravity(normal)))
        }
    }
    .map_err(text)
}

impl System {
    pub fn gradient(&self) -> &[f32] {
        match &self.0 {
            Inner::Se3(normal) => &normal.gradient,
            Inner::Gravity(normal) => &normal.gradient,
        }
    }

    /// The blocks by row and column, each DOF × DOF by rows.
    pub fn blocks(&self) -> &BTreeMap<(usize, usize), Vec<f32>> {
        match &self.0 {
            Inner::Se3(normal) => &normal.blocks,
            Inner::Gravity(normal) => &normal.blocks,
        }
    }

    /// One damped solve of its own, nothing kept.
    pub fn solve(&self, damping: f32) -> Result<Vec<f32>, String> {
        match &self.0 {
            Inner::Se3(normal) => solve_once(normal, damping),
            Inner::Gravity(normal) => solve_once(normal, damping),
        }
    }
}

/// A damped solve of any system: `entry(i, j)` for j ≤ i, each a block of its own.
pub fn solve(
    gradient: &[f32],
    damping: f32,
    entry: impl Fn(usize, usize) -> f32,
) -> Result<Vec<f32>, String> {
    let n = gradient.len();
    let lower = (0..n).flat_map(|i| (0..=i).map(move |j| (i, j)));
    let normal = NormalSystem::<1> {
        block_count: n,
        blocks: lower.map(|(i, j)| ((i, j), vec![entry(i, j)])).collect(),
        gradient: gradient.to_vec(),
    };
    solve_once(&normal, damping)
}

fn solve_once<const DOF: usize>(
    normal: &NormalSystem<DOF>,
    damping: f32,
) -> Result<Vec<f32>, String> {
    let result = normal.solve_damped_with_cache(
        damping,
        &mut None,
        #[cfg(test)]
        &mut SparsePgoTestHooks::default(),
    );
    result.map_err(text)
}

#[cfg(test)]
pub use hooked::{optimize_hooked, Forced, Record, Trial};

#[cfg(test)]
mod hooked {
    //! The run with the original's hooks: what is forced, and what was recorded.

    use super::*;

    #[derive(Clone, Debug, Default)]
    pub struct Forced {
        pub factorization_failures: usize,
        pub solve_breakdowns: usize,
        pub step: Option<Vec<f32>>,
    }

    /// One evaluated trial, with the damping after it.
    #[derive(Copy, Clone, Debug)]
    pub struct Trial {
        pub damping: f32,
        pub accepted: bool,
        pub numerical_failure: bool,
    }

    #[derive(Clone, Debug, Default)]
    pub struct Record {
        pub normal_assemblies: usize,
        pub symbolic_analyses: usize,
        pub solve_dampings: Vec<f32>,
        pub trials: Vec<Trial>,
    }

    pub fn optimize_hooked(
        gravity: Gravity,
        g: Graph,
        params: &PgoParams,
        forced: &Forced,
    ) -> (Result<Finished, String>, Record) {
        match gravity {
            None => run(g, params, &Se3Manifold, forced),
            Some(axis) => match GravityManifold::new(axis) {
                Ok(manifold) => run(g, params, &manifold, forced),
                Err(error) => (Err(text(error)), Record::default()),
            },
        }
    }

    fn run<const DOF: usize>(
        g: Graph,
        params: &PgoParams,
        manifold: &impl PoseManifold<DOF>,
        forced: &Forced,
    ) -> (Result<Finished, String>, Record) {
        let mut hooks = SparsePgoTestHooks {
            factorization_failures_remaining: forced.factorization_failures,
            solve_breakdowns_remaining: forced.solve_breakdowns,
            forced_step: forced.step.clone(),
            ..Default::default()
        };
        let result = sparse_pose_graph_optimize_with_test_hooks(
            g.poses, g.edges, g.fixed, params, manifold, &mut hooks,
        );
        (result.map(finished).map_err(text), record(hooks))
    }

    fn record(hooks: SparsePgoTestHooks) -> Record {
        let trial = |t: &SparsePgoTestIteration| Trial {
            damping: t.damping,
            accepted: t.accepted,
            numerical_failure: t.numerical_failure,
        };
        Record {
            normal_assemblies: hooks.normal_assemblies,
            symbolic_analyses: hooks.symbolic_analyses,
            solve_dampings: hooks.solve_dampings,
            trials: hooks.iterations.iter().map(trial).collect(),
        }
    }
}
