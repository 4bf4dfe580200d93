//! One run's inputs in the flat form that the exports take, and their reading as the original's types.

use kornia_3d::pgo::{PgoEdge, PgoParams};
use kornia_3d::pose::Pose3d;
use kornia_algebra::{Mat3AF32, Mat3F64, Vec3AF32, Vec3F64, SE3F32, SO3F32};

/// Everything lent to a run; of the work and the output only the lengths.
#[derive(Clone, Debug)]
pub struct Case {
    pub gravity: Option<[f64; 3]>,
    pub poses: Vec<f64>,
    pub ends: Vec<u32>,
    pub edges: Vec<f32>,
    pub fixed: Vec<u32>,
    pub limit: u32,
    pub cost_tolerance: f32,
    pub gradient_tolerance: f32,
    pub damping: f32,
    pub work32: usize,
    pub work64: usize,
    pub out: usize,
}

/// The graph as the original holds it.
pub struct Owned {
    pub poses: Vec<Pose3d>,
    pub edges: Vec<PgoEdge>,
    pub fixed: Vec<usize>,
}

pub fn vector(n: &[f64]) -> Vec3F64 {
    Vec3F64::new(n[0], n[1], n[2])
}

/// A pose from twelve numbers: columns x, y, z, then translation.
pub fn pose(n: &[f64]) -> Pose3d {
    let rotation = Mat3F64::from_cols(vector(&n[0..]), vector(&n[3..]), vector(&n[6..]));
    Pose3d::new(rotation, vector(&n[9..]))
}

pub fn pose_numbers(p: &Pose3d) -> [f64; 12] {
    let (a, b, c, t) = (
        p.rotation.x_axis,
        p.rotation.y_axis,
        p.rotation.z_axis,
        p.translation,
    );
    [a.x, a.y, a.z, b.x, b.y, b.z, c.x, c.y, c.z, t.x, t.y, t.z]
}

/// A transform from seven numbers: quaternion x, y, z, w, then translation.
pub fn transform(n: &[f32]) -> SE3F32 {
    SE3F32::new(
        SO3F32::new(n[0], n[1], n[2], n[3]),
        Vec3AF32::new(n[4], n[5], n[6]),
    )
}

pub fn transform_numbers(t: &SE3F32) -> [f32; 7] {
    [t.r.x, t.r.y, t.r.z, t.r.w, t.t.x, t.t.y, t.t.z]
}

/// A pose's transform, converted as pose_conversion.rs does.
pub fn se3(numbers: &[f64]) -> SE3F32 {
    let p = pose(numbers);
    let narrow = Mat3AF32::from_cols(
        p.rotation.x_axis.as_vec3a(),
        p.rotation.y_axis.as_vec3a(),
        p.rotation.z_axis.as_vec3a(),
    );
    SE3F32::new(SO3F32::from_matrix(&narrow), p.translation.as_vec3a())
}

impl Case {
    pub fn dof(&self) -> usize {
        match self.gravity {
            None => 6,
            Some(_) => 4,
        }
    }

    pub fn pose_count(&self) -> usize {
        self.poses.len() / 12
    }

    pub fn edge_count(&self) -> usize {
        self.ends.len() / 2
    }

    pub fn axis(&self) -> Option<Vec3F64> {
        self.gravity.map(|g| vector(&g))
    }

    /// Some edge names it, of whatever weight, and it is not fixed.
    pub fn is_free(&self, pose: usize) -> bool {
        let pose = pose as u32;
        self.ends.contains(&pose) && !self.fixed.contains(&pose)
    }

    pub fn free_count(&self) -> usize {
        let poses = 0..self.pose_count();
        poses.filter(|pose| self.is_free(*pose)).count()
    }

    /// n, the number of unknowns.
    pub fn unknowns(&self) -> usize {
        self.dof() * self.free_count()
    }

    pub fn need32(&self) -> usize {
        let n = self.unknowns();
        n * (n + 3)
    }

    pub fn need64(&self) -> usize {
        24 * self.pose_count()
    }

    /// Lends exactly the work and the output that the graph needs.
    pub fn fit(&mut self) {
        self.work32 = self.need32();
        self.work64 = self.need64();
        self.out = self.poses.len();
    }

    pub fn params(&self) -> PgoParams {
        PgoParams {
            max_iterations: self.limit as usize,
            cost_tolerance: self.cost_tolerance,
            gradient_tolerance: self.gradient_tolerance,
            initial_lambda: self.damping,
        }
    }

    /// The graph of a case whose lengths fit (row 2).
    pub fn owned(&self) -> Owned {
        let edge = |(ends, n): (&[u32], &[f32])| PgoEdge {
            pose_a: ends[0] as usize,
            pose_b: ends[1] as usize,
            t_ab_meas: transform(n),
            weight: n[7],
        };
        let pairs = self.ends.chunks_exact(2).zip(self.edges.chunks_exact(8));
        Owned {
            poses: self.poses.chunks_exact(12).map(pose).collect(),
            edges: pairs.map(edge).collect(),
            fixed: self.fixed.iter().map(|i| *i as usize).collect(),
        }
    }
}

impl Owned {
    pub fn plain(&self) -> original::Graph<'_> {
        original::Graph {
            poses: &self.poses,
            edges: &self.edges,
            fixed: &self.fixed,
        }
    }

    pub fn hooked(&self) -> original_hooked::Graph<'_> {
        original_hooked::Graph {
            poses: &self.poses,
            edges: &self.edges,
            fixed: &self.fixed,
        }
    }
}
