//! Chains: every edge side both ways, every byte flat, every pair of bytes, drawn pictures, and rows about as long as a part.

use super::texels::drawn;
use super::{edge_sides, Run};
use crate::call::Call;
use crate::plain::{chain_texels, level_texels, Document01, CUBEMAP, TRUNCATING};

/// Runs the part.
pub fn run(run: &mut Run) {
    of_mode(run, TRUNCATING);
}

/// The chains of a mode.
pub fn of_mode(run: &mut Run, mode: u32) {
    for kind in 0..=4 {
        small_sides(run, kind, mode);
        long_sides(run, kind, mode);
        flat_bytes(run, kind, mode);
        pairs_of_bytes(run, kind, mode);
        drawn_pictures(run, kind, mode);
        if run.scale.largest {
            largest_sides(run, kind, mode);
        }
    }
    for kind in 0..=4 {
        rows_about_parts(run, kind, mode);
    }
}

/// One chain over a level 0, in a buffer longer than the chain by `longer`.
pub fn chain(run: &mut Run, kind: u32, width: u32, height: u32, mode: u32, level_0: Vec<u32>, longer: usize) {
    let mut texels = level_0;
    let exact = chain_texels::<Document01>(kind, width, height) as usize;
    texels.resize(exact + longer, 0x0BAD_F00D);
    run.call(&Call::GenerateMipmaps {
        kind,
        width,
        height,
        mode,
        texels: &texels,
    });
}

/// One chain over drawn texels.
fn drawn_chain(run: &mut Run, kind: u32, width: u32, height: u32, mode: u32) {
    let level_0 = level_texels::<Document01>(kind, width, height, 0) as usize;
    let texels = drawn(&mut run.random, level_0);
    let longer = run.random.below(4) as usize;
    chain(run, kind, width, height, mode, texels, longer);
}

/// Every pair of sides from 1 to 40.
fn small_sides(run: &mut Run, kind: u32, mode: u32) {
    for width in (1..=40).step_by(run.scale.every.min(9)) {
        for height in (1..=40).step_by(run.scale.every.min(7)) {
            drawn_chain(run, kind, width, height, mode);
        }
    }
}

/// The longest sides beside short ones, both ways.
fn long_sides(run: &mut Run, kind: u32, mode: u32) {
    for long in [4095, 4096] {
        for short in [1, 2, 3, 5, 8] {
            drawn_chain(run, kind, long, short, mode);
            drawn_chain(run, kind, short, long, mode);
        }
    }
}

/// Every byte as a flat picture: the smallest, and one of 13 levels.
fn flat_bytes(run: &mut Run, kind: u32, mode: u32) {
    for byte in (0..256u32).step_by(run.scale.every) {
        for (width, height) in [(2, 1), (4096, 1)] {
            let level_0 = level_texels::<Document01>(kind, width, height, 0) as usize;
            chain(run, kind, width, height, mode, vec![byte * 0x0101_0101; level_0], 0);
        }
    }
}

/// Every pair of bytes in one picture of 512 by 512: as (a, b, a, b), (a, b, b, b) and (a, b, drawn, drawn).
fn pairs_of_bytes(run: &mut Run, kind: u32, mode: u32) {
    if kind == CUBEMAP || run.scale.every > 1 {
        return;
    }
    let side = 512;
    for form in 0..3 {
        let mut texels = vec![0u32; side * side];
        for a in 0..256u32 {
            for b in 0..256u32 {
                let place = 2 * a as usize * side + 2 * b as usize;
                // The four channels have the pair in four different places of the square of all pairs.
                let first = u32::from_be_bytes([a as u8, b as u8, a as u8 ^ 0x55, b as u8 ^ 0xAA]);
                let second = u32::from_be_bytes([b as u8, a as u8, b as u8 ^ 0xAA, a as u8 ^ 0x55]);
                let drawn = run.random.next();
                let below = match form {
                    0 => [first, second],
                    1 => [second, second],
                    _ => [drawn as u32, (drawn >> 32) as u32],
                };
                texels[place] = first;
                texels[place + 1] = second;
                texels[place + side] = below[0];
                texels[place + side + 1] = below[1];
            }
        }
        chain(run, kind, side as u32, side as u32, mode, texels, 0);
    }
}

/// Drawn pictures until enough texels were made of them.
fn drawn_pictures(run: &mut Run, kind: u32, mode: u32) {
    let mut made = 0;
    while made < run.scale.texels {
        let longest = if kind == CUBEMAP { 300 } else { 700 };
        let width = run.random.between(2, longest) as u32;
        let height = run.random.between(2, longest) as u32;
        drawn_chain(run, kind, width, height, mode);
        let level_0 = level_texels::<Document01>(kind, width, height, 0);
        made += (chain_texels::<Document01>(kind, width, height) - level_0) as u64;
    }
}

/// The longest sides both ways; for a cubemap beside a shorter one.
fn largest_sides(run: &mut Run, kind: u32, mode: u32) {
    let sides: Vec<u32> = edge_sides().into_iter().filter(|side| *side > 4000).collect();
    for &width in &sides {
        for &height in &sides {
            let height = if kind == CUBEMAP { height / 8 } else { height };
            drawn_chain(run, kind, width, height, mode);
        }
    }
}

/// Rows about as long as one and two of the parts of 64 and of 128 texels that a row is made by.
fn rows_about_parts(run: &mut Run, kind: u32, mode: u32) {
    for row in [63, 64, 65, 127, 128, 129, 255, 256, 257] {
        for width in [2 * row, 2 * row + 1] {
            for height in 1..=3 {
                drawn_chain(run, kind, width, height, mode);
            }
        }
    }
}
