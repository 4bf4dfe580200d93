//! Vectors of three and three-by-three matrices held by columns, in f64 and in f32.
//! Every sum of three is (x + y) + z; the f32 types hold numbers and do no arithmetic.

use std::ops::{Add, Div, Mul, Neg};

#[derive(Copy, Clone, Debug, PartialEq)]
pub struct Vec3F64 {
    pub x: f64,
    pub y: f64,
    pub z: f64,
}

#[derive(Copy, Clone, Debug, PartialEq)]
pub struct Vec3AF32 {
    pub x: f32,
    pub y: f32,
    pub z: f32,
}

#[derive(Copy, Clone, Debug, PartialEq)]
pub struct Mat3F64 {
    pub x_axis: Vec3F64,
    pub y_axis: Vec3F64,
    pub z_axis: Vec3F64,
}

#[derive(Copy, Clone, Debug, PartialEq)]
pub struct Mat3AF32 {
    pub x_axis: Vec3AF32,
    pub y_axis: Vec3AF32,
    pub z_axis: Vec3AF32,
}

impl Vec3F64 {
    pub const fn new(x: f64, y: f64, z: f64) -> Self {
        Self { x, y, z }
    }

    pub fn dot(self, b: Self) -> f64 {
        (self.x * b.x + self.y * b.y) + self.z * b.z
    }

    pub fn cross(self, b: Self) -> Self {
        Self::new(
            self.y * b.z - self.z * b.y,
            self.z * b.x - self.x * b.z,
            self.x * b.y - self.y * b.x,
        )
    }

    pub fn length(self) -> f64 {
        self.dot(self).sqrt()
    }

    /// Each number divided by the length.
    pub fn normalize(self) -> Self {
        self / self.length()
    }

    /// Each number narrowed to f32: nearest, ties to even, overflow to infinity.
    pub fn as_vec3a(self) -> Vec3AF32 {
        Vec3AF32::new(self.x as f32, self.y as f32, self.z as f32)
    }
}

impl Vec3AF32 {
    pub const fn new(x: f32, y: f32, z: f32) -> Self {
        Self { x, y, z }
    }

    /// Each number widened to f64, which is exact.
    pub fn as_dvec3(self) -> Vec3F64 {
        Vec3F64::new(self.x as f64, self.y as f64, self.z as f64)
    }
}

impl Mat3F64 {
    pub const fn from_cols(x_axis: Vec3F64, y_axis: Vec3F64, z_axis: Vec3F64) -> Self {
        Self {
            x_axis,
            y_axis,
            z_axis,
        }
    }

    pub fn col(&self, index: usize) -> Vec3F64 {
        [self.x_axis, self.y_axis, self.z_axis][index]
    }

    pub fn transpose(self) -> Self {
        let (a, b, c) = (self.x_axis, self.y_axis, self.z_axis);
        Self::from_cols(
            Vec3F64::new(a.x, b.x, c.x),
            Vec3F64::new(a.y, b.y, c.y),
            Vec3F64::new(a.z, b.z, c.z),
        )
    }
}

impl Mat3AF32 {
    pub const fn from_cols(x_axis: Vec3AF32, y_axis: Vec3AF32, z_axis: Vec3AF32) -> Self {
        Self {
            x_axis,
            y_axis,
            z_axis,
        }
    }

    pub fn col(&self, index: usize) -> Vec3AF32 {
        [self.x_axis, self.y_axis, self.z_axis][index]
    }

    pub fn as_dmat3(self) -> Mat3F64 {
        Mat3F64::from_cols(
            self.x_axis.as_dvec3(),
            self.y_axis.as_dvec3(),
            self.z_axis.as_dvec3(),
        )
    }
}

impl Add for Vec3F64 {
    type Output = Self;
    fn add(self, b: Self) -> Self {
        Self::new(self.x + b.x, self.y + b.y, self.z + b.z)
    }
}

impl Neg for Vec3F64 {
    type Output = Self;
    fn neg(self) -> Self {
        Self::new(-self.x, -self.y, -self.z)
    }
}

impl Mul<f64> for Vec3F64 {
    type Output = Self;
    fn mul(self, k: f64) -> Self {
        Self::new(self.x * k, self.y * k, self.z * k)
    }
}

impl Div<f64> for Vec3F64 {
    type Output = Self;
    fn div(self, k: f64) -> Self {
        Self::new(self.x / k, self.y / k, self.z / k)
    }
}

impl Mul<Vec3F64> for Mat3F64 {
    type Output = Vec3F64;
    fn mul(self, v: Vec3F64) -> Vec3F64 {
        let rows = self.transpose();
        Vec3F64::new(rows.x_axis.dot(v), rows.y_axis.dot(v), rows.z_axis.dot(v))
    }
}

impl Mul for Mat3F64 {
    type Output = Self;
    fn mul(self, b: Self) -> Self {
        Self::from_cols(self * b.x_axis, self * b.y_axis, self * b.z_axis)
    }
}
