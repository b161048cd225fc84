//! Four u32 side by side.

use std::ops::{Add, Mul};

/// Four u32.
#[derive(Clone, Copy, PartialEq, Eq, Debug, Default)]
#[repr(C, align(16))]
pub struct UVec4 {
    pub x: u32,
    pub y: u32,
    pub z: u32,
    pub w: u32,
}

impl UVec4 {
    #[inline(always)]
    pub const fn new(x: u32, y: u32, z: u32, w: u32) -> Self {
        UVec4 { x, y, z, w }
    }

    #[inline(always)]
    pub const fn splat(value: u32) -> Self {
        UVec4::new(value, value, value, value)
    }

    #[inline(always)]
    fn pairs(self, other: UVec4, lane: impl Fn(u32, u32) -> u32) -> UVec4 {
        UVec4::new(
            lane(self.x, other.x),
            lane(self.y, other.y),
            lane(self.z, other.z),
            lane(self.w, other.w),
        )
    }

    #[inline(always)]
    pub fn min(self, other: UVec4) -> UVec4 {
        self.pairs(other, u32::min)
    }
}

impl Add for UVec4 {
    type Output = UVec4;

    #[inline(always)]
    fn add(self, other: UVec4) -> UVec4 {
        self.pairs(other, |a, b| a + b)
    }
}

impl Mul for UVec4 {
    type Output = UVec4;

    #[inline(always)]
    fn mul(self, other: UVec4) -> UVec4 {
        self.pairs(other, |a, b| a * b)
    }
}
