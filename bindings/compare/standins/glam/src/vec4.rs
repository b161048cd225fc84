//! Four f32 side by side.

use crate::lanes::{self, Four};
use crate::masks::BVec4A;
use crate::uvec4::UVec4;
use std::ops::{Add, AddAssign, Div, DivAssign, Index, Mul, MulAssign, Neg, Sub, SubAssign};

/// Four f32.
#[derive(Clone, Copy, PartialEq, Debug, Default)]
#[repr(C, align(16))]
pub struct Vec4 {
    pub x: f32,
    pub y: f32,
    pub z: f32,
    pub w: f32,
}

impl Vec4 {
    pub const ZERO: Self = Self::splat(0.0);
    pub const ONE: Self = Self::splat(1.0);
    pub const NEG_ONE: Self = Self::splat(-1.0);

    #[inline(always)]
    pub const fn new(x: f32, y: f32, z: f32, w: f32) -> Self {
        Vec4 { x, y, z, w }
    }

    #[inline(always)]
    pub const fn splat(value: f32) -> Self {
        Vec4::new(value, value, value, value)
    }

    #[inline(always)]
    fn four(self) -> Four {
        Four([self.x, self.y, self.z, self.w])
    }

    #[inline(always)]
    fn of(four: Four) -> Vec4 {
        Vec4::new(four.0[0], four.0[1], four.0[2], four.0[3])
    }

    /// The lanes of `a` where the mask holds, those of `b` elsewhere.
    #[inline(always)]
    pub fn select(mask: BVec4A, a: Vec4, b: Vec4) -> Vec4 {
        Vec4::of(lanes::select(mask.0, a.four(), b.four()))
    }

    #[inline(always)]
    pub fn abs(self) -> Vec4 {
        Vec4::of(lanes::abs(self.four()))
    }

    #[inline(always)]
    pub fn floor(self) -> Vec4 {
        Vec4::of(lanes::floor(self.four()))
    }

    #[inline(always)]
    pub fn round(self) -> Vec4 {
        Vec4::of(lanes::round(self.four()))
    }

    #[inline(always)]
    pub fn min(self, other: Vec4) -> Vec4 {
        Vec4::of(lanes::min(self.four(), other.four()))
    }

    #[inline(always)]
    pub fn max(self, other: Vec4) -> Vec4 {
        Vec4::of(lanes::max(self.four(), other.four()))
    }

    #[inline(always)]
    pub fn clamp(self, least: Vec4, most: Vec4) -> Vec4 {
        self.max(least).min(most)
    }

    #[inline(always)]
    pub fn cmpge(self, other: Vec4) -> BVec4A {
        BVec4A(lanes::ge(self.four(), other.four()))
    }

    #[inline(always)]
    pub fn cmpgt(self, other: Vec4) -> BVec4A {
        BVec4A(lanes::gt(self.four(), other.four()))
    }

    /// Each lane cast to u32, held to its range.
    #[inline(always)]
    pub fn as_uvec4(self) -> UVec4 {
        UVec4::new(self.x as u32, self.y as u32, self.z as u32, self.w as u32)
    }
}

impl Index<usize> for Vec4 {
    type Output = f32;

    #[inline(always)]
    fn index(&self, lane: usize) -> &f32 {
        match lane {
            0 => &self.x,
            1 => &self.y,
            2 => &self.z,
            3 => &self.w,
            _ => panic!("a vector of four has no lane {lane}"),
        }
    }
}

impl Neg for Vec4 {
    type Output = Vec4;

    #[inline(always)]
    fn neg(self) -> Vec4 {
        Vec4::new(-self.x, -self.y, -self.z, -self.w)
    }
}

macro_rules! operation {
    ($trait:ident $call:ident $assign:ident $assign_call:ident) => {
        impl $trait for Vec4 {
            type Output = Vec4;

            #[inline(always)]
            fn $call(self, other: Vec4) -> Vec4 {
                Vec4::of(lanes::$call(self.four(), other.four()))
            }
        }

        impl $trait<f32> for Vec4 {
            type Output = Vec4;

            #[inline(always)]
            fn $call(self, other: f32) -> Vec4 {
                self.$call(Vec4::splat(other))
            }
        }

        impl $trait<Vec4> for f32 {
            type Output = Vec4;

            #[inline(always)]
            fn $call(self, other: Vec4) -> Vec4 {
                Vec4::splat(self).$call(other)
            }
        }

        impl $assign for Vec4 {
            #[inline(always)]
            fn $assign_call(&mut self, other: Vec4) {
                *self = (*self).$call(other);
            }
        }

        impl $assign<f32> for Vec4 {
            #[inline(always)]
            fn $assign_call(&mut self, other: f32) {
                *self = (*self).$call(other);
            }
        }
    };
}

operation!(Add add AddAssign add_assign);
operation!(Sub sub SubAssign sub_assign);
operation!(Mul mul MulAssign mul_assign);
operation!(Div div DivAssign div_assign);

/// Between these four lanes and the processor's own.
macro_rules! own_lanes {
    ($arch:literal $own:path) => {
        #[cfg(target_arch = $arch)]
        impl From<Vec4> for $own {
            #[inline(always)]
            fn from(v: Vec4) -> Self {
                // Both are four f32, aligned to 16 bytes; so below.
                unsafe { std::mem::transmute(v) }
            }
        }

        #[cfg(target_arch = $arch)]
        impl From<$own> for Vec4 {
            #[inline(always)]
            fn from(v: $own) -> Self {
                unsafe { std::mem::transmute(v) }
            }
        }
    };
}

own_lanes!("x86_64" std::arch::x86_64::__m128);
own_lanes!("aarch64" std::arch::aarch64::float32x4_t);
