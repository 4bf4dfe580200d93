//! Stands in for kornia_3d: a pose in f64, the edges of a pose graph and the run's settings.

pub mod pgo {
    //! Edges and settings, named as in the library.

    use kornia_algebra::SE3F32;

    #[derive(Copy, Clone, Debug)]
    pub struct PgoEdge {
        pub pose_a: usize,
        pub pose_b: usize,
        pub t_ab_meas: SE3F32,
        pub weight: f32,
    }

    #[derive(Copy, Clone, Debug)]
    pub struct PgoParams {
        pub max_iterations: usize,
        pub cost_tolerance: f32,
        pub gradient_tolerance: f32,
        pub initial_lambda: f32,
    }
}

pub mod pose {
    //! A pose: rotation matrix and translation, f64 throughout.

    use kornia_algebra::{Mat3F64, Vec3F64};

    #[derive(Copy, Clone, Debug)]
    pub struct Pose3d {
        pub rotation: Mat3F64,
        pub translation: Vec3F64,
    }

    impl Pose3d {
        pub const fn new(rotation: Mat3F64, translation: Vec3F64) -> Self {
            Self {
                rotation,
                translation,
            }
        }

        /// The transpose, and −(Rᵀ t) with the minus last (C2).
        pub fn inverse(&self) -> Self {
            let back = self.rotation.transpose();
            Self::new(back, -(back * self.translation))
        }

        pub fn compose(&self, b: &Self) -> Self {
            Self::new(
                self.rotation * b.rotation,
                self.rotation * b.translation + self.translation,
            )
        }

        /// b seen from a: b · a⁻¹.
        pub fn between(a: &Self, b: &Self) -> Self {
            b.compose(&a.inverse())
        }
    }
}
