//! Kinds, sizes, layout. The functions answer for all numbers; those of refused pictures are never used.

use super::refusals::{bad_kind, bad_sides, first};
use super::rules::Rules;
use super::{Answer, CUBEMAP};

/// Levels number 1 + floor(log2(larger side)): the top level is one less.
pub fn top_level(width: u32, height: u32) -> u32 {
    width.max(height).max(1).ilog2()
}

/// A cubemap level holds six faces.
pub fn face_count(kind: u32) -> u32 {
    if kind == CUBEMAP {
        6
    } else {
        1
    }
}

/// The texels of one face of level m.
pub fn face_texels<R: Rules>(width: u32, height: u32, m: u32) -> u128 {
    R::level_side(width, m) as u128 * R::level_side(height, m) as u128
}

/// The texels of level m.
pub fn level_texels<R: Rules>(kind: u32, width: u32, height: u32, m: u32) -> u128 {
    face_texels::<R>(width, height, m) * face_count(kind) as u128
}

/// Levels follow each other without gaps: level m starts behind all those before it.
pub fn level_start<R: Rules>(kind: u32, width: u32, height: u32, m: u32) -> u128 {
    (0..m).map(|j| level_texels::<R>(kind, width, height, j)).sum()
}

/// The chain's texel count.
pub fn chain_texels<R: Rules>(kind: u32, width: u32, height: u32) -> u128 {
    level_start::<R>(kind, width, height, top_level(width, height) + 1)
}

/// Level sizes take kind, sides and level (1, 2, 6) and answer the level's start and sides with the chain's texel count.
pub fn level_sizes<R: Rules>(kind: u32, width: u32, height: u32, level: u32) -> Answer<[u64; 4]> {
    first::<R>(&[
        (1, bad_kind(kind)),
        (2, bad_sides(width, height)),
        (6, level > top_level(width, height)),
    ])?;
    Ok([
        level_start::<R>(kind, width, height, level) as u64,
        R::level_side(width, level) as u64,
        R::level_side(height, level) as u64,
        chain_texels::<R>(kind, width, height) as u64,
    ])
}
