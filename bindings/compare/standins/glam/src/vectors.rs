//! The other vectors that the source's text names. The comparison calls nothing that uses them; `findings` asks for the
//! source's irradiance, which takes `Vec3A`.

use crate::vec4::Vec4;
use std::ops::{Add, AddAssign, Div, Mul, MulAssign, Sub};

/// Two f32.
#[derive(Clone, Copy, PartialEq, Debug)]
pub struct Vec2 {
    pub x: f32,
    pub y: f32,
}

impl Vec2 {
    pub const fn new(x: f32, y: f32) -> Self {
        Vec2 { x, y }
    }
}

/// Three f32.
#[derive(Clone, Copy, PartialEq, Debug)]
pub struct Vec3A {
    pub x: f32,
    pub y: f32,
    pub z: f32,
}

impl Vec3A {
    pub const ZERO: Self = Self::new(0.0, 0.0, 0.0);
    pub const X: Self = Self::new(1.0, 0.0, 0.0);
    pub const Z: Self = Self::new(0.0, 0.0, 1.0);

    pub const fn new(x: f32, y: f32, z: f32) -> Self {
        Vec3A { x, y, z }
    }

    pub fn dot(self, other: Vec3A) -> f32 {
        self.x * other.x + self.y * other.y + self.z * other.z
    }

    pub fn cross(self, other: Vec3A) -> Vec3A {
        Vec3A::new(
            self.y * other.z - self.z * other.y,
            self.z * other.x - self.x * other.z,
            self.x * other.y - self.y * other.x,
        )
    }

    pub fn normalize(self) -> Vec3A {
        self / self.dot(self).sqrt()
    }
}

impl Add for Vec3A {
    type Output = Vec3A;

    fn add(self, other: Vec3A) -> Vec3A {
        Vec3A::new(self.x + other.x, self.y + other.y, self.z + other.z)
    }
}

impl Sub for Vec3A {
    type Output = Vec3A;

    fn sub(self, other: Vec3A) -> Vec3A {
        Vec3A::new(self.x - other.x, self.y - other.y, self.z - other.z)
    }
}

impl Mul<f32> for Vec3A {
    type Output = Vec3A;

    fn mul(self, other: f32) -> Vec3A {
        Vec3A::new(self.x * other, self.y * other, self.z * other)
    }
}

impl Div<f32> for Vec3A {
    type Output = Vec3A;

    fn div(self, other: f32) -> Vec3A {
        Vec3A::new(self.x / other, self.y / other, self.z / other)
    }
}

impl AddAssign for Vec3A {
    fn add_assign(&mut self, other: Vec3A) {
        *self = *self + other;
    }
}

impl MulAssign<f32> for Vec3A {
    fn mul_assign(&mut self, other: f32) {
        *self = *self * other;
    }
}

/// Four columns of four f32.
#[derive(Clone, Copy, PartialEq, Debug)]
pub struct Mat4([Vec4; 4]);

impl Mat4 {
    pub fn col(&self, column: usize) -> Vec4 {
        self.0[column]
    }
}
