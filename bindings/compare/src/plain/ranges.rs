//! T-02: ranges beside level 0 of a picture that is no cubemap. Of every tile of 16 by 16 texels the smallest and the
//! largest value of each channel.

use super::refusals::{first, of_level_0, too_short};
use super::rules::Rules;
use super::texel::bytes;
use super::{Answer, Lent, CUBEMAP};
use std::ops::Range;

/// The side of a tile.
const TILE: u32 = 16;

/// A replacement: its place in level 0, and the texel that comes there.
#[derive(Clone, Copy, Debug)]
pub struct Replacement {
    pub x: u32,
    pub y: u32,
    pub texel: u32,
}

/// Eight bytes a tile, by the sides alone.
pub fn ranges_bytes(width: u32, height: u32) -> u128 {
    8 * width.div_ceil(TILE) as u128 * height.div_ceil(TILE) as u128
}

/// 1, 2, 3 (level 0 or the ranges), 8 (a cubemap).
fn refused<R: Rules>(picture: &Lent, ranges: &[u8]) -> Answer<()> {
    let [one, two, three] = of_level_0::<R>(picture);
    let needed = ranges_bytes(picture.width, picture.height);
    first::<R>(&[
        one,
        two,
        three,
        (3, too_short(ranges.len(), needed)),
        (8, picture.kind == CUBEMAP),
    ])
}

/// The texels of a tile along a side; edge tiles are smaller.
fn along(tile: u32, side: u32) -> Range<u32> {
    tile * TILE..side.min(tile * TILE + TILE)
}

/// The eight bytes of a tile, red to alpha.
fn range<R: Rules>(width: u32, height: u32, texels: &[u32], column: u32, row: u32) -> [u8; 8] {
    let mut tile = Vec::new();
    for y in along(row, height) {
        for x in along(column, width) {
            tile.push(bytes(texels[y as usize * width as usize + x as usize]));
        }
    }
    let of_channel = |channel: usize| {
        let values: Vec<u8> = tile.iter().map(|bytes| bytes[channel] as u8).collect();
        R::smallest_and_largest(&values)
    };
    let mut eight = [0; 8];
    for channel in 0..4 {
        eight[2 * channel..2 * channel + 2].copy_from_slice(&of_channel(channel));
    }
    eight
}

/// The place of a tile's eight bytes.
fn of_tile<R: Rules>(ranges: &mut [u8], width: u32, column: u32, row: u32) -> &mut [u8; 8] {
    let number = R::tile_number(width, column, row);
    ranges[8 * number..]
        .first_chunk_mut()
        .expect("the ranges are long enough")
}

/// `build_ranges` answers the bytes written. Entries past them stay as found.
pub fn build_ranges<R: Rules>(picture: &Lent, ranges: &mut [u8]) -> Answer<u64> {
    refused::<R>(picture, ranges)?;
    let &Lent {
        width, height, texels, ..
    } = picture;
    for row in 0..height.div_ceil(TILE) {
        for column in 0..width.div_ceil(TILE) {
            *of_tile::<R>(ranges, width, column, row) = range::<R>(width, height, texels, column, row);
        }
    }
    Ok(ranges_bytes(width, height) as u64)
}

/// `replace_texel` (14 last: a place outside the picture) changes one texel and one tile's bytes; no level is rebuilt.
pub fn replace_texel<R: Rules>(
    kind: u32,
    width: u32,
    height: u32,
    texels: &mut [u32],
    ranges: &mut [u8],
    replacement: &Replacement,
) -> Answer<()> {
    let picture = Lent {
        kind,
        width,
        height,
        texels,
    };
    refused::<R>(&picture, ranges)?;
    let &Replacement { x, y, texel } = replacement;
    if x >= width || y >= height {
        return Err(14);
    }
    texels[y as usize * width as usize + x as usize] = texel;
    let (column, row) = (x / TILE, y / TILE);
    let own = range::<R>(width, height, texels, column, row);
    let eight = of_tile::<R>(ranges, width, column, row);
    *eight = R::brought_up_to_date(*eight, texel, own);
    Ok(())
}

#[cfg(test)]
mod tests {
    use super::super::{Document01, LINEAR};
    use super::*;
    use crate::random::Random;

    /// The ranges of a picture, in a buffer that held other bytes.
    fn built(width: u32, height: u32, texels: &[u32]) -> Vec<u8> {
        let mut ranges = vec![0x5A; ranges_bytes(width, height) as usize];
        let picture = Lent {
            kind: LINEAR,
            width,
            height,
            texels,
        };
        assert_eq!(
            build_ranges::<Document01>(&picture, &mut ranges),
            Ok(ranges.len() as u64)
        );
        ranges
    }

    #[test]
    fn two_tiles_beside_each_other() {
        let mut texels = [0x4050_6070; 17];
        texels[3] = 0x0150_60FF;
        texels[15] = 0x40FE_6000;
        texels[16] = 0x1122_3344;
        assert_eq!(
            built(17, 1, &texels),
            [0x01, 0x40, 0x50, 0xFE, 0x60, 0x60, 0x00, 0xFF, 0x11, 0x11, 0x22, 0x22, 0x33, 0x33, 0x44, 0x44]
        );
    }

    #[test]
    fn a_range_shrinks_with_its_extreme() {
        let mut texels = [0x8080_8080, 0xFF00_80FF];
        let mut ranges = [0; 8];
        let away = Replacement {
            x: 1,
            y: 0,
            texel: 0x8180_8080,
        };
        assert_eq!(
            replace_texel::<Document01>(LINEAR, 2, 1, &mut texels, &mut ranges, &away),
            Ok(())
        );
        assert_eq!(texels, [0x8080_8080, 0x8180_8080]);
        assert_eq!(ranges, [0x80, 0x81, 0x80, 0x80, 0x80, 0x80, 0x80, 0x80]);
    }

    /// From ranges just built, any series of replacements leaves those worked out afresh.
    #[test]
    fn a_series_leaves_ranges_as_if_built() {
        let mut random = Random::of(1, "series");
        let (width, height) = (37, 35);
        let mut texels: Vec<u32> = (0..width * height).map(|_| random.next() as u32).collect();
        let mut ranges = built(width, height, &texels);
        for _ in 0..500 {
            let replacement = Replacement {
                x: random.below(width as u64) as u32,
                y: random.below(height as u64) as u32,
                texel: random.next() as u32,
            };
            replace_texel::<Document01>(LINEAR, width, height, &mut texels, &mut ranges, &replacement)
                .expect("a place inside");
            assert_eq!(ranges, built(width, height, &texels));
        }
    }
}
