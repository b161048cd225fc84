//! A picture with ranges beside it, which a part builds, replaces in, and carries on from one call to the next.

use super::texels::bytes;
use super::Run;
use crate::call::Call;
use crate::plain::{build_ranges, ranges_bytes, replace_texel, Document01, Lent, Replacement};

/// A picture with ranges beside it.
pub struct Beside {
    pub kind: u32,
    pub width: u32,
    pub height: u32,
    pub texels: Vec<u32>,
    pub ranges: Vec<u8>,
}

impl Beside {
    /// A picture over these texels, with ranges of drawn bytes: never built.
    pub fn new(run: &mut Run, kind: u32, width: u32, height: u32, texels: Vec<u32>) -> Beside {
        Beside {
            kind,
            width,
            height,
            texels,
            ranges: bytes(&mut run.random, ranges_bytes(width, height) as usize),
        }
    }

    /// The picture as it is lent.
    fn lend(&self) -> Lent<'_> {
        Lent {
            kind: self.kind,
            width: self.width,
            height: self.height,
            texels: &self.texels,
        }
    }

    /// Asks for the ranges.
    pub fn build(&self, run: &mut Run) {
        run.call(&Call::BuildRanges {
            picture: self.lend(),
            ranges: &self.ranges,
        });
    }

    /// Asks for the ranges, and keeps what is left.
    pub fn build_and_keep(&mut self, run: &mut Run) {
        self.build(run);
        let mut ranges = std::mem::take(&mut self.ranges);
        build_ranges::<Document01>(&self.lend(), &mut ranges).expect("a picture that is taken");
        self.ranges = ranges;
    }

    /// Asks for a replacement.
    pub fn replace(&self, run: &mut Run, x: u32, y: u32, texel: u32) {
        run.call(&Call::ReplaceTexel {
            picture: self.lend(),
            ranges: &self.ranges,
            replacement: Replacement { x, y, texel },
        });
    }

    /// Asks for a replacement, and keeps what is left.
    pub fn replace_and_keep(&mut self, run: &mut Run, x: u32, y: u32, texel: u32) {
        self.replace(run, x, y, texel);
        let replacement = Replacement { x, y, texel };
        let (texels, ranges) = (&mut self.texels, &mut self.ranges);
        replace_texel::<Document01>(self.kind, self.width, self.height, texels, ranges, &replacement)
            .expect("a place inside");
    }
}

/// Every pair of sides around a tile's, and the longest ones beside these both ways.
pub fn sides_around_tiles() -> Vec<(u32, u32)> {
    let around = [1, 15, 16, 17, 31, 32, 33];
    let mut sides: Vec<(u32, u32)> = around.iter().flat_map(|w| around.map(|h| (*w, h))).collect();
    for long in [4095, 4096] {
        for short in [1, 15, 16, 17] {
            sides.extend([(long, short), (short, long)]);
        }
    }
    sides
}

/// Places along a side at the corners of its first tiles and of its last, and just outside them.
pub fn corners(side: u32) -> Vec<u32> {
    let mut places: Vec<u32> = [0, 15, 16, 31, 32, side - 1]
        .into_iter()
        .filter(|place| *place < side)
        .collect();
    places.sort();
    places.dedup();
    places
}

/// A texel of 80808080 with one channel at either end of its range.
pub fn extremes() -> impl Iterator<Item = u32> {
    [24, 16, 8, 0]
        .into_iter()
        .flat_map(|shift| [0x8080_8080 & !(0xFF << shift), 0x8080_8080 | 0xFF << shift])
}
