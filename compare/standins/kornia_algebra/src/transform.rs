//! Rotations and transforms: f32 numbers outside, f64 arithmetic inside, each finished transform narrowed once.
//! The library's retract and exp give no error, so an exp that document 01 lets fail gives a transform of NaN here;
//! the Rust's own tests for finite numbers then refuse it.

use std::ops::Mul;

use crate::quaternion::Quaternion;
use crate::vectors::{Mat3AF32, Mat3F64, Vec3AF32, Vec3F64};

#[derive(Copy, Clone, Debug, PartialEq)]
pub struct SO3F32 {
    pub x: f32,
    pub y: f32,
    pub z: f32,
    pub w: f32,
}

#[derive(Copy, Clone, Debug, PartialEq)]
pub struct SE3F32 {
    pub r: SO3F32,
    pub t: Vec3AF32,
}

#[derive(Copy, Clone, Debug, PartialEq)]
pub struct SO3F64 {
    q: Quaternion,
}

impl SO3F32 {
    pub const fn new(x: f32, y: f32, z: f32, w: f32) -> Self {
        Self { x, y, z, w }
    }

    fn widened(self) -> Quaternion {
        Quaternion::new(self.x as f64, self.y as f64, self.z as f64, self.w as f64)
    }

    fn narrowed(q: Quaternion) -> Self {
        Self::new(q.v.x as f32, q.v.y as f32, q.v.z as f32, q.w as f32)
    }

    /// The matrix worked out in f64 from the widened quaternion, then narrowed.
    pub fn matrix(&self) -> Mat3AF32 {
        let m = self.widened().matrix();
        Mat3AF32::from_cols(
            m.x_axis.as_vec3a(),
            m.y_axis.as_vec3a(),
            m.z_axis.as_vec3a(),
        )
    }

    /// Document 01's four branches, all in f32; m_cr by column and row.
    pub fn from_matrix(m: &Mat3AF32) -> Self {
        if m.z_axis.z <= 0.0 {
            Self::from_matrix_low(m)
        } else {
            Self::from_matrix_high(m)
        }
    }

    fn from_matrix_low(m: &Mat3AF32) -> Self {
        let (c0, c1, c2) = (m.x_axis, m.y_axis, m.z_axis);
        let d = c1.y - c0.x;
        let k = 1.0 - c2.z;
        if d <= 0.0 {
            let p = k - d;
            Self::scaled(p, [p, c0.y + c1.x, c0.z + c2.x, c1.z - c2.y])
        } else {
            let p = k + d;
            Self::scaled(p, [c0.y + c1.x, p, c1.z + c2.y, c2.x - c0.z])
        }
    }

    fn from_matrix_high(m: &Mat3AF32) -> Self {
        let (c0, c1, c2) = (m.x_axis, m.y_axis, m.z_axis);
        let s = c1.y + c0.x;
        let k = 1.0 + c2.z;
        if s <= 0.0 {
            let p = k - s;
            Self::scaled(p, [c0.z + c2.x, c1.z + c2.y, p, c0.y - c1.x])
        } else {
            let p = k + s;
            Self::scaled(p, [c1.z - c2.y, c2.x - c0.z, c0.y - c1.x, p])
        }
    }

    /// Four products with 0.5/√p, which is worked out once (C13).
    fn scaled(p: f32, n: [f32; 4]) -> Self {
        let f = 0.5 / p.sqrt();
        Self::new(n[0] * f, n[1] * f, n[2] * f, n[3] * f)
    }
}

impl SE3F32 {
    pub const fn new(r: SO3F32, t: Vec3AF32) -> Self {
        Self { r, t }
    }

    fn narrowed(q: Quaternion, t: Vec3F64) -> Self {
        Self::new(SO3F32::narrowed(q), t.as_vec3a())
    }

    /// The conjugate, and −(R⁻¹ t) by the conjugate's matrix, the minus last (C2).
    pub fn inverse(&self) -> Self {
        let q = self.r.widened().conjugate();
        Self::narrowed(q, -(q.matrix() * self.t.as_dvec3()))
    }

    /// exp of (translation, rotation); none where document 01 lets it fail.
    pub fn checked_exp(delta: &[f32; 6]) -> Option<Self> {
        let d = delta.map(f64::from);
        let t = Vec3F64::new(d[0], d[1], d[2]);
        let omega = Vec3F64::new(d[3], d[4], d[5]);
        let q = Quaternion::exp(omega)?;
        Some(Self::narrowed(q, q.exp_translation(omega, t)))
    }

    /// exp, NaN where it fails.
    pub fn exp(delta: &[f32; 6]) -> Self {
        const NONE: f32 = f32::NAN;
        Self::checked_exp(delta).unwrap_or(Self::new(
            SO3F32::new(NONE, NONE, NONE, NONE),
            Vec3AF32::new(NONE, NONE, NONE),
        ))
    }

    pub fn retract(&self, delta: &[f32; 6]) -> Self {
        *self * Self::exp(delta)
    }

    /// Translation and rotation of log, each number narrowed.
    pub fn log(&self) -> (Vec3AF32, Vec3AF32) {
        let q = self.r.widened().upright();
        let omega = q.log();
        let t = q.log_translation(omega, self.t.as_dvec3());
        (t.as_vec3a(), omega.as_vec3a())
    }
}

impl Mul for SE3F32 {
    type Output = Self;
    fn mul(self, b: Self) -> Self {
        let q = self.r.widened();
        let t = q.matrix() * b.t.as_dvec3() + self.t.as_dvec3();
        Self::narrowed(q.product(b.r.widened()), t)
    }
}

impl SO3F64 {
    /// exp in f64, NaN where it fails.
    pub fn exp(omega: Vec3F64) -> Self {
        const NONE: f64 = f64::NAN;
        let none = Quaternion::new(NONE, NONE, NONE, NONE);
        Self {
            q: Quaternion::exp(omega).unwrap_or(none),
        }
    }

    pub fn matrix(&self) -> Mat3F64 {
        self.q.matrix()
    }
}

#[cfg(test)]
mod tests {
    use super::*;

    const ONE: SO3F32 = SO3F32::new(0.0, 0.0, 0.0, 1.0);

    fn near(a: SO3F32, b: SO3F32) -> bool {
        let d = [a.x - b.x, a.y - b.y, a.z - b.z, a.w - b.w];
        d.iter().all(|d| d.abs() < 1e-6)
    }

    #[test]
    fn log_of_identity_is_zero() {
        let zero = Vec3AF32::new(0.0, 0.0, 0.0);
        assert_eq!(SE3F32::new(ONE, zero).log(), (zero, zero));
    }

    #[test]
    fn four_branches_give_back_the_quaternion() {
        let h = 0.5f32;
        for q in [
            SO3F32::new(0.9, 0.3, 0.3, 0.1),
            SO3F32::new(0.3, 0.9, 0.3, 0.1),
            SO3F32::new(0.3, 0.3, 0.9, 0.1),
            SO3F32::new(h, -h, h, h),
            ONE,
        ] {
            assert!(near(SO3F32::from_matrix(&q.matrix()), q), "{q:?}");
        }
    }

    #[test]
    fn product_with_inverse_is_identity() {
        let a = SE3F32::exp(&[1.0, 2.0, -3.0, 0.4, -0.5, 0.6]);
        let e = a * a.inverse();
        assert!(near(e.r, ONE) && e.t.x.abs() + e.t.y.abs() + e.t.z.abs() < 1e-5);
    }

    #[test]
    fn an_exp_that_fails_is_nan() {
        let far = SE3F32::exp(&[0.0, 0.0, 0.0, 65.0, 0.0, 0.0]);
        assert!(far.r.x.is_nan() && far.r.w.is_nan() && far.t.x.is_nan());
        assert!(SO3F64::exp(Vec3F64::new(65.0, 0.0, 0.0))
            .matrix()
            .x_axis
            .x
            .is_nan());
    }

    #[test]
    fn a_matrix_is_narrowed_after_its_f64_arithmetic() {
        let m = SO3F32::new(0.0, 0.0, 0.0, 3e38).matrix();
        assert_eq!(
            m.as_dmat3(),
            SO3F64::exp(Vec3F64::new(0.0, 0.0, 0.0)).matrix()
        );
        let over = SO3F32::new(1e20, 0.0, 0.0, 0.0).matrix();
        assert_eq!(over.y_axis.y, f32::NEG_INFINITY);
    }
}
