//! Building ranges and replacing a texel, with memcpy of the texels that are read as the floor.

use super::{time, Row};
use crate::cases::spoil::replacement;
use crate::plain::{ranges_bytes, Lent, Replacement};
use crate::random::Random;
use crate::unit::Unit;
use std::hint::black_box;

/// Replacements in a round.
const REPLACEMENTS: usize = 20_000;

/// The ranges of a square picture; a thing is a texel of level 0.
pub fn build<'a>(unit: &'a dyn Unit, random: &mut Random, side: u32) -> Row<'a> {
    let (texels, mut ranges) = drawn(random, side);
    let (from, mut to) = (texels.clone(), texels.clone());
    Row {
        name: format!("build_ranges, {side} square"),
        count: texels.len() as u64,
        unit: Some(Box::new(move || {
            let picture = Lent {
                kind: 4,
                width: side,
                height: side,
                texels: &texels,
            };
            let mut written = 0;
            time(|| unit.build_ranges(&picture, &mut ranges, &mut written))
        })),
        source: None,
        floor: Some(Box::new(move || time(|| to.copy_from_slice(&from)))),
    }
}

/// Replacements all over a square picture of whole tiles; a thing is a call, which reads one tile.
pub fn replace<'a>(unit: &'a dyn Unit, random: &mut Random, side: u32) -> Row<'a> {
    let (mut texels, mut ranges) = drawn(random, side);
    let replacements: Vec<Replacement> = (0..REPLACEMENTS).map(|_| replacement(random, side, side)).collect();
    let (from, places) = (texels.clone(), replacements.clone());
    Row {
        name: format!("replace_texel, {side} square"),
        count: REPLACEMENTS as u64,
        unit: Some(Box::new(move || {
            time(|| {
                for replacement in &replacements {
                    black_box(unit.replace_texel(4, side, side, &mut texels, &mut ranges, replacement));
                }
            })
        })),
        source: None,
        floor: Some(Box::new(move || {
            time(|| {
                for place in &places {
                    black_box(&copied_tile(&from, side as usize, place));
                }
            })
        })),
    }
}

/// Drawn texels of a square picture, and room for its ranges.
fn drawn(random: &mut Random, side: u32) -> (Vec<u32>, Vec<u8>) {
    let texels = (0..side * side).map(|_| random.next() as u32).collect();
    (texels, vec![0; ranges_bytes(side, side) as usize])
}

/// The texels of the tile in which a place lies.
fn copied_tile(texels: &[u32], side: usize, place: &Replacement) -> [u32; 256] {
    let corner = (place.y as usize / 16 * side + place.x as usize / 16) * 16;
    let mut tile = [0; 256];
    for (row, to) in tile.chunks_exact_mut(16).enumerate() {
        let from = corner + row * side;
        to.copy_from_slice(&texels[from..from + 16]);
    }
    tile
}
