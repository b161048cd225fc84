//! Ranges: sides around a tile's, every kind, both buffers one short, exact and longer, an extreme at each corner of a
//! tile, and drawn pictures. Where a buffer decides, a replacement is asked for too.

use super::beside::{corners, extremes, sides_around_tiles, Beside};
use super::texels::{bytes, drawn};
use super::Run;
use crate::plain::{chain_texels, level_texels, ranges_bytes, Document01, CUBEMAP};

/// Runs the part.
pub fn run(run: &mut Run) {
    for kind in 0..=5 {
        for (width, height) in sides_around_tiles().into_iter().step_by(run.scale.every.min(6)) {
            by_length(run, kind, width, height);
        }
    }
    for (width, height) in [(1, 1), (4, 4), (17, 16), (33, 20)] {
        cubemap(run, width, height);
    }
    refused_sides(run);
    for (width, height) in [(16, 16), (17, 33), (20, 18), (48, 48)] {
        one_extreme(run, width, height);
    }
    for kind in [0, 1, 2, 4] {
        drawn_pictures(run, kind);
    }
    if run.scale.largest {
        largest(run);
    }
}

/// Both calls, with buffers of these lengths.
fn both(run: &mut Run, beside: &Beside) {
    beside.build(run);
    let (x, y) = (beside.width.saturating_sub(1), beside.height / 2);
    let texel = run.random.next() as u32;
    beside.replace(run, x, y, texel);
    beside.replace(run, beside.width, y, texel);
}

/// One picture by its texels and its ranges each none, one short, exact and longer.
fn by_length(run: &mut Run, kind: u32, width: u32, height: u32) {
    let level_0 = level_texels::<Document01>(kind, width, height, 0) as usize;
    let of_ranges = ranges_bytes(width, height) as usize;
    let texels = drawn(&mut run.random, level_0 + 3);
    let ranges = bytes(&mut run.random, of_ranges + 9);
    let mut lengths = vec![
        (level_0, of_ranges),
        (level_0 + 3, of_ranges + 9),
        (level_0 - 1, of_ranges),
        (level_0, of_ranges - 1),
        (level_0 - 1, of_ranges - 1),
    ];
    if level_0 < 10_000 {
        lengths.extend([
            (0, of_ranges),
            (level_0, 0),
            (0, 0),
            (level_0, of_ranges + 1),
            (level_0 + 1, of_ranges),
        ]);
    }
    for (length, length_of_ranges) in lengths {
        let beside = Beside {
            kind,
            width,
            height,
            texels: texels[..length].to_vec(),
            ranges: ranges[..length_of_ranges].to_vec(),
        };
        both(run, &beside);
    }
}

/// A cubemap with room for one face, five, one texel short of six, six and the chain; its ranges none, short, enough.
fn cubemap(run: &mut Run, width: u32, height: u32) {
    let face = (width * height) as usize;
    let chain = chain_texels::<Document01>(CUBEMAP, width, height) as usize;
    let of_ranges = ranges_bytes(width, height) as usize;
    for length in [face, 5 * face, 6 * face - 1, 6 * face, chain] {
        for length_of_ranges in [0, of_ranges - 1, of_ranges, 6 * of_ranges] {
            let beside = Beside {
                kind: CUBEMAP,
                width,
                height,
                texels: drawn(&mut run.random, length),
                ranges: bytes(&mut run.random, length_of_ranges),
            };
            both(run, &beside);
        }
    }
}

/// Sides just outside, and those whose products do not fit in 32 bits, or in 64.
fn refused_sides(run: &mut Run) {
    let sides = [0, 1, 16, 4096, 4097, 65536, 1 << 28, 1 << 31, u32::MAX - 14, u32::MAX];
    for kind in [0, CUBEMAP, 5, u32::MAX] {
        for width in sides {
            for height in sides {
                let beside = Beside {
                    kind,
                    width,
                    height,
                    texels: drawn(&mut run.random, 300),
                    ranges: bytes(&mut run.random, 16),
                };
                both(run, &beside);
            }
        }
    }
}

/// A flat picture but for one channel of one texel: at each corner of a tile and just outside it.
fn one_extreme(run: &mut Run, width: u32, height: u32) {
    let mut beside = Beside::new(run, 4, width, height, vec![0x8080_8080; (width * height) as usize]);
    for y in corners(height) {
        for x in corners(width).into_iter().step_by(run.scale.every.min(2)) {
            let place = (y * width + x) as usize;
            for texel in extremes() {
                beside.texels[place] = texel;
                beside.build(run);
            }
            beside.texels[place] = 0x8080_8080;
        }
    }
}

/// Drawn pictures until enough texels were gone through, each with some texels behind level 0.
fn drawn_pictures(run: &mut Run, kind: u32) {
    let mut texels = 0;
    while texels < run.scale.texels {
        let longest = if run.random.one_in(20) { 1000 } else { 100 };
        let (width, height) = (run.random.between(1, longest) as u32, run.random.between(1, 100) as u32);
        let level_0 = width as usize * height as usize;
        let whole = chain_texels::<Document01>(kind, width, height) as usize;
        let length = run.random.between(level_0 as i64, whole as i64 + 2) as usize;
        let longer = run.random.below(20) as usize;
        let beside = Beside {
            kind,
            width,
            height,
            texels: drawn(&mut run.random, length),
            ranges: bytes(&mut run.random, ranges_bytes(width, height) as usize + longer),
        };
        beside.build(run);
        texels += level_0 as u64;
    }
}

/// The longest sides both ways.
fn largest(run: &mut Run) {
    for (width, height) in [(4096, 4096), (4095, 4095)] {
        let texels = drawn(&mut run.random, (width * height) as usize);
        let mut beside = Beside::new(run, 4, width, height, texels);
        beside.build_and_keep(run);
        for (x, y) in [
            (0, 0),
            (width - 1, 0),
            (0, height - 1),
            (width - 1, height - 1),
            (2048, 2047),
        ] {
            let texel = run.random.next() as u32;
            beside.replace_and_keep(run, x, y, texel);
        }
    }
}
