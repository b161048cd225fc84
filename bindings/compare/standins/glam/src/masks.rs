//! Four truths, as the source's two mask types name them.

use crate::lanes::{self, Truths};
use std::ops::BitAnd;

/// Four truths.
#[derive(Clone, Copy, PartialEq, Debug)]
pub struct BVec4([bool; 4]);

/// Four truths, as a comparison of vectors answers them.
#[derive(Clone, Copy, PartialEq, Debug)]
pub struct BVec4A(pub(crate) Truths);

impl BitAnd for BVec4A {
    type Output = Self;

    #[inline(always)]
    fn bitand(self, other: Self) -> Self {
        BVec4A(lanes::and(self.0, other.0))
    }
}

impl From<[bool; 4]> for BVec4A {
    #[inline(always)]
    fn from(each: [bool; 4]) -> Self {
        BVec4A(Truths(each.map(|truth| if truth { u32::MAX } else { 0 })))
    }
}

impl From<BVec4A> for [bool; 4] {
    #[inline(always)]
    fn from(mask: BVec4A) -> Self {
        mask.0 .0.map(|lane| lane != 0)
    }
}

impl From<[bool; 4]> for BVec4 {
    #[inline(always)]
    fn from(each: [bool; 4]) -> Self {
        BVec4(each)
    }
}

impl From<BVec4> for [bool; 4] {
    #[inline(always)]
    fn from(mask: BVec4) -> Self {
        mask.0
    }
}
