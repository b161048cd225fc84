//! Replacements: places at each corner of a tile and outside the picture, extremes that come and go, ranges built,
//! stale and never built, and drawn series.

use super::beside::{corners, extremes, sides_around_tiles, Beside};
use super::texels::drawn;
use super::Run;
use crate::plain::{chain_texels, Document01};

/// Replacements of one series.
const SERIES: u64 = 50;

/// Runs the part.
pub fn run(run: &mut Run) {
    for (width, height) in [(1, 1), (16, 16), (17, 5), (5, 17), (40, 33), (4096, 1), (1, 4096)] {
        places(run, width, height);
    }
    for (width, height) in [(16, 16), (17, 33), (20, 18), (48, 48)] {
        extremes_come_and_go(run, width, height);
    }
    for kind in [0, 1, 2, 4] {
        for (width, height) in sides_around_tiles().into_iter().step_by(run.scale.every.min(6)) {
            at_corners(run, kind, width, height);
        }
    }
    for _ in 0..run.scale.lookups / 4 / SERIES {
        series(run);
    }
}

/// A picture of drawn texels with its whole chain behind level 0, which must stay.
fn with_chain(run: &mut Run, kind: u32, width: u32, height: u32) -> Beside {
    let whole = chain_texels::<Document01>(kind, width, height) as usize;
    let texels = drawn(&mut run.random, whole);
    Beside::new(run, kind, width, height, texels)
}

/// Places along a side: the first, the last, one outside, further, and those whose products do not fit in 32 bits.
fn along(side: u32) -> Vec<u32> {
    vec![
        0,
        side - 1,
        side,
        side + 1,
        2 * side,
        4096,
        1 << 16,
        1 << 28,
        1 << 31,
        u32::MAX - side + 1,
        u32::MAX,
    ]
}

/// Places inside and outside, in buffers longer than level 0: a place outside may have a texel there.
fn places(run: &mut Run, width: u32, height: u32) {
    let mut beside = with_chain(run, 4, width, height);
    beside.texels.extend([0x0BAD_F00D; 40]);
    beside.ranges.extend([0xA7; 40]);
    for x in along(width) {
        for y in along(height) {
            let texel = run.random.next() as u32;
            beside.replace(run, x, y, texel);
        }
    }
}

/// In a flat picture: a texel that sets an extreme, the same once more, a second one with it, and each taken away.
fn extremes_come_and_go(run: &mut Run, width: u32, height: u32) {
    let flat = 0x8080_8080;
    let texels = vec![flat; (width * height) as usize];
    let never_built = Beside::new(run, 4, width, height, texels.clone());
    let mut beside = Beside::new(run, 4, width, height, texels);
    beside.build_and_keep(run);
    for y in corners(height) {
        for x in corners(width).into_iter().step_by(run.scale.every.min(2)) {
            for texel in extremes() {
                never_built.replace(run, x, y, texel);
                // The second place lies in the same tile; at an edge it may be the first.
                let (second_x, second_y) = ((x ^ 1).min(width - 1), (y ^ 3).min(height - 1));
                beside.replace_and_keep(run, x, y, texel);
                beside.replace_and_keep(run, x, y, texel);
                beside.replace_and_keep(run, second_x, second_y, texel);
                beside.replace_and_keep(run, x, y, flat);
                beside.replace_and_keep(run, second_x, second_y, flat);
            }
        }
    }
    beside.build(run);
}

/// At each corner of a tile, into ranges that were just built and into such as were never built.
fn at_corners(run: &mut Run, kind: u32, width: u32, height: u32) {
    let mut beside = with_chain(run, kind, width, height);
    let step = if width.max(height) > 100 { 3 } else { 1 };
    for built in [false, true] {
        if built {
            beside.build_and_keep(run);
        }
        for y in corners(height).into_iter().step_by(step) {
            for x in corners(width).into_iter().rev().step_by(step) {
                let texel = run.random.next() as u32;
                beside.replace_and_keep(run, x, y, texel);
            }
        }
    }
}

/// A texel for a series: one that the picture has, one with a channel at an end, or any.
fn texel(run: &mut Run, beside: &Beside) -> u32 {
    match run.random.below(4) {
        0 => run.random.pick(&beside.texels),
        1 => {
            let end = run.random.pick(&[0, 0xFFFF_FFFF]);
            let channel = 0xFF << (8 * run.random.below(4));
            run.random.pick(&beside.texels) & !channel | end & channel
        }
        2 => run.random.pick(&beside.texels) ^ 0x0101_0101,
        _ => run.random.next() as u32,
    }
}

/// A drawn series: mostly from ranges just built, sometimes from others; in some a byte goes stale on the way.
fn series(run: &mut Run) {
    let kind = run.random.pick(&[0, 1, 2, 4]);
    let (width, height) = (run.random.between(1, 70) as u32, run.random.between(1, 70) as u32);
    let mut beside = with_chain(run, kind, width, height);
    if !run.random.one_in(4) {
        beside.build_and_keep(run);
    }
    let goes_stale = run.random.one_in(4);
    for _ in 0..SERIES {
        if goes_stale && run.random.one_in(10) {
            let byte = run.random.below(beside.ranges.len() as u64) as usize;
            beside.ranges[byte] = run.random.next() as u8;
        }
        let (x, y) = (
            run.random.below(width as u64) as u32,
            run.random.below(height as u64) as u32,
        );
        let texel = texel(run, &beside);
        beside.replace_and_keep(run, x, y, texel);
    }
    beside.build(run);
}
