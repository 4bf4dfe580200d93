//! A quaternion in f64 as vector part v and real part w: matrix, product, and the halves of exp and log
//! that document 01 writes as series.

use crate::vectors::{Mat3F64, Vec3F64};

#[derive(Copy, Clone, Debug, PartialEq)]
pub struct Quaternion {
    pub v: Vec3F64,
    pub w: f64,
}

/// The largest ω·ω that exp takes.
const EXP_LIMIT: f64 = 4096.0;

/// Where the series for small angles ends: strictly below this θ².
const SMALL: f64 = 1.0 / 256.0;

/// (-s)^k / (2k+1)!, k to 5.
const SINE: [f64; 6] = [
    1.0,
    1.0 / 6.0,
    1.0 / 120.0,
    1.0 / 5040.0,
    1.0 / 362880.0,
    1.0 / 39916800.0,
];

/// (-s)^k / (2k)!, k to 5.
const COSINE: [f64; 6] = [
    1.0,
    1.0 / 2.0,
    1.0 / 24.0,
    1.0 / 720.0,
    1.0 / 40320.0,
    1.0 / 3628800.0,
];

/// (-t)^k / (2k+1), k to 7.
const ARCTANGENT: [f64; 8] = [
    1.0,
    1.0 / 3.0,
    1.0 / 5.0,
    1.0 / 7.0,
    1.0 / 9.0,
    1.0 / 11.0,
    1.0 / 13.0,
    1.0 / 15.0,
];

/// c0 + x (c1 + x (c2 + ..)).
fn horner(x: f64, coefficients: &[f64]) -> f64 {
    let mut from_last = coefficients.iter().rev();
    let last = from_last.next().copied().unwrap_or(0.0);
    from_last.fold(last, |sum, c| c + x * sum)
}

/// (t + B (ω × t)) + C (ω × (ω × t)).
pub fn turned(omega: Vec3F64, b: f64, c: f64, t: Vec3F64) -> Vec3F64 {
    let p = omega.cross(t);
    let q = omega.cross(p);
    (t + p * b) + q * c
}

impl Quaternion {
    pub const fn new(x: f64, y: f64, z: f64, w: f64) -> Self {
        Self {
            v: Vec3F64::new(x, y, z),
            w,
        }
    }

    pub fn conjugate(self) -> Self {
        Self {
            v: -self.v,
            w: self.w,
        }
    }

    pub fn matrix(self) -> Mat3F64 {
        let (x, y, z, w) = (self.v.x, self.v.y, self.v.z, self.w);
        Mat3F64::from_cols(
            Vec3F64::new(
                1.0 - 2.0 * (y * y + z * z),
                2.0 * (x * y + z * w),
                2.0 * (x * z - y * w),
            ),
            Vec3F64::new(
                2.0 * (x * y - z * w),
                1.0 - 2.0 * (x * x + z * z),
                2.0 * (y * z + x * w),
            ),
            Vec3F64::new(
                2.0 * (x * z + y * w),
                2.0 * (y * z - x * w),
                1.0 - 2.0 * (x * x + y * y),
            ),
        )
    }

    /// C1.
    pub fn product(self, q: Self) -> Self {
        let (px, py, pz, pw) = (self.v.x, self.v.y, self.v.z, self.w);
        let (qx, qy, qz, qw) = (q.v.x, q.v.y, q.v.z, q.w);
        Self::new(
            ((pw * qx + px * qw) + py * qz) - pz * qy,
            ((pw * qy - px * qz) + py * qw) + pz * qx,
            ((pw * qz + px * qy) - py * qx) + pz * qw,
            ((pw * qw - px * qx) - py * qy) - pz * qz,
        )
    }

    /// √(v·v + w²), C9.
    fn length(self) -> f64 {
        (self.v.dot(self.v) + self.w * self.w).sqrt()
    }

    /// ((2w)v, w² − v·v), C10.
    fn squared(self) -> Self {
        Self {
            v: self.v * (2.0 * self.w),
            w: self.w * self.w - self.v.dot(self.v),
        }
    }

    /// exp of a rotation vector; none where ω·ω > 4096 (a NaN passes, T7).
    pub fn exp(omega: Vec3F64) -> Option<Self> {
        if omega.dot(omega) > EXP_LIMIT {
            return None;
        }
        let h = omega / 256.0;
        let s = h.dot(h);
        let mut q = Self {
            v: h * horner(-s, &SINE),
            w: horner(-s, &COSINE),
        };
        for _ in 0..7 {
            q = q.squared();
        }
        Some(q)
    }

    /// exp's translation: t turned by I + B[ω] + C[ω]², where `self` is exp of ω (C4 to C7).
    pub fn exp_translation(self, omega: Vec3F64, t: Vec3F64) -> Vec3F64 {
        let theta2 = omega.dot(omega);
        if theta2 < SMALL {
            let b = horner(theta2, &[1.0 / 2.0, -1.0 / 24.0, 1.0 / 720.0]);
            let c = horner(theta2, &[1.0 / 6.0, -1.0 / 120.0, 1.0 / 5040.0]);
            return turned(omega, b, c, t);
        }
        let theta = theta2.sqrt();
        let s = self.v.dot(omega) / theta;
        let b = ((2.0 * s) * s) / theta2;
        let c = (theta - (2.0 * s) * self.w) / (theta2 * theta);
        turned(omega, b, c, t)
    }

    /// Negated where w < 0; −0 is not below 0 (T4).
    pub fn upright(self) -> Self {
        if self.w < 0.0 {
            Self {
                v: -self.v,
                w: -self.w,
            }
        } else {
            self
        }
    }

    /// The rotation vector of an upright quaternion (C9, C11).
    pub fn log(self) -> Vec3F64 {
        let mut q = self;
        for _ in 0..3 {
            q.w += q.length();
        }
        let a = q.v / q.w;
        let t = a.dot(a);
        (a * 16.0) * horner(-t, &ARCTANGENT)
    }

    /// log's translation: t turned by I − [ω]/2 + D[ω]², where ω is log of the upright `self` (C7, C8).
    pub fn log_translation(self, omega: Vec3F64, t: Vec3F64) -> Vec3F64 {
        let theta2 = omega.dot(omega);
        if theta2 < SMALL {
            let d = horner(theta2, &[1.0 / 12.0, 1.0 / 720.0, 1.0 / 30240.0]);
            return turned(omega, -0.5, d, t);
        }
        let half = theta2.sqrt() / 2.0;
        let d = (1.0 - (half * self.w) / self.v.length()) / theta2;
        turned(omega, -0.5, d, t)
    }
}

#[cfg(test)]
mod tests {
    use super::*;

    #[test]
    fn horner_starts_from_the_last_coefficient() {
        assert_eq!(horner(2.0, &[1.0, 10.0, 100.0]), 1.0 + 2.0 * (10.0 + 200.0));
    }

    #[test]
    fn exp_is_near_the_closed_form_up_to_its_limit() {
        for theta in [1e-9, 0.01, 0.0625, 0.5, 3.0, 3.2, 6.0, 20.0, 64.0] {
            let q = Quaternion::exp(Vec3F64::new(0.0, 0.0, theta)).unwrap();
            assert!((q.v.z - (theta / 2.0).sin()).abs() < 1e-12, "{theta}");
            assert!((q.w - (theta / 2.0).cos()).abs() < 1e-12, "{theta}");
        }
        assert!(Quaternion::exp(Vec3F64::new(64.000001, 0.0, 0.0)).is_none());
        assert!(Quaternion::exp(Vec3F64::new(f64::NAN, 0.0, 0.0)).is_some());
    }

    #[test]
    fn log_undoes_exp_within_half_a_turn() {
        for theta in [0.0, 1e-6, 0.05, 0.0625, 0.07, 1.0, 2.0, 3.0, 3.14] {
            let omega = Vec3F64::new(0.6 * theta, 0.0, -0.8 * theta);
            let back = Quaternion::exp(omega).unwrap().upright().log();
            assert!((back.x - omega.x).abs() < 1e-9, "{theta}");
            assert!((back.z - omega.z).abs() < 1e-9, "{theta}");
        }
    }

    #[test]
    fn translations_of_exp_and_log_undo_each_other() {
        for theta in [0.0, 0.03, 0.0625, 0.0626, 0.5, 2.5] {
            let omega = Vec3F64::new(0.0, 0.6 * theta, 0.8 * theta);
            let q = Quaternion::exp(omega).unwrap().upright();
            let t = Vec3F64::new(1.0, -2.0, 3.0);
            let back = q.log_translation(q.log(), q.exp_translation(omega, t));
            for (a, b) in [(back.x, t.x), (back.y, t.y), (back.z, t.z)] {
                assert!((a - b).abs() < 1e-8, "{theta}: {a} {b}");
            }
        }
    }
}
