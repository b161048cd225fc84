//! Irradiance: every kind, texels one short of level 0, exact and longer; small sides both ways and the longest; cubemaps that are
//! black, white, of one colour, with one bright texel, and drawn.

use super::texels::drawn;
use super::Run;
use crate::call::Call;
use crate::plain::{chain_texels, level_texels, Document01, Lent, CUBEMAP};

/// Runs the part.
pub fn run(run: &mut Run) {
    for kind in [0, 1, 2, 3, 4, 5, u32::MAX] {
        for (width, height) in [(1, 1), (2, 1), (3, 5), (8, 8), (4096, 1), (1, 4096)] {
            by_length(run, kind, width, height);
        }
    }
    refused_sides(run);
    for (width, height) in sides().into_iter().step_by(run.scale.every.min(7)) {
        of_one_texel(run, width, height);
        for _ in 0..4usize.div_ceil(run.scale.every) {
            drawn_cubemap(run, width, height);
        }
    }
    for byte in 0..256 {
        cubemap(run, 1, 1, vec![byte * 0x0101_0100; 6]);
    }
    for (width, height) in [(1, 1), (2, 2), (3, 3), (4, 7), (16, 16), (33, 64)] {
        one_bright_texel(run, width, height);
    }
    drawn_cubemaps(run);
    if run.scale.largest {
        for (width, height) in [(256, 256), (255, 256), (4096, 64), (64, 4096)] {
            drawn_cubemap(run, width, height);
        }
    }
}

/// Asks for the coefficients.
fn ask(run: &mut Run, kind: u32, width: u32, height: u32, texels: &[u32]) {
    run.call(&Call::IrradianceSh4 {
        picture: Lent {
            kind,
            width,
            height,
            texels,
        },
    });
}

/// Asks for those of a cubemap.
fn cubemap(run: &mut Run, width: u32, height: u32, texels: Vec<u32>) {
    ask(run, CUBEMAP, width, height, &texels);
}

/// The texels of a cubemap's level 0.
fn six_faces(width: u32, height: u32) -> usize {
    6 * width as usize * height as usize
}

/// Pairs of small sides, squares of up to 64 texels and beside them, rows about one and two times that long, and the longest.
fn sides() -> Vec<(u32, u32)> {
    let small = [1, 2, 3, 4, 5, 7, 8, 15, 16, 17];
    let mut sides: Vec<(u32, u32)> = small.iter().flat_map(|w| small.map(|h| (*w, h))).collect();
    sides.extend([(31, 31), (32, 32), (33, 33), (64, 64), (63, 64), (64, 9)]);
    sides.extend([(65, 2), (127, 3), (128, 3), (129, 2)]);
    sides.extend([(4096, 1), (1, 4096), (4095, 1), (1, 4095), (4096, 2), (3, 4095)]);
    sides
}

/// Texels none, one short of a face, of level 0 and of six faces, exact, longer, and the whole chain.
fn by_length(run: &mut Run, kind: u32, width: u32, height: u32) {
    let face = width as usize * height as usize;
    let level_0 = level_texels::<Document01>(kind, width, height, 0) as usize;
    let chain = chain_texels::<Document01>(kind, width, height) as usize;
    let texels = drawn(&mut run.random, 6 * face + chain);
    for length in [0, face - 1, face, 5 * face, 6 * face - 1, 6 * face, level_0 + 3, chain] {
        ask(run, kind, width, height, &texels[..length]);
    }
}

/// Sides just outside, and those whose products do not fit in 32 bits, or in 64.
fn refused_sides(run: &mut Run) {
    let sides = [0, 1, 4096, 4097, 65536, 1 << 30, 1 << 31, u32::MAX];
    for kind in [0, CUBEMAP, 5, u32::MAX] {
        for width in sides {
            for height in sides {
                for length in [0, 6] {
                    ask(run, kind, width, height, &[0x8040_20FF; 6][..length]);
                }
            }
        }
    }
}

/// Black with any alpha, white, and one drawn colour.
fn of_one_texel(run: &mut Run, width: u32, height: u32) {
    let texels = six_faces(width, height);
    let black = (0..texels).map(|_| run.random.next() as u32 & 0xFF).collect();
    cubemap(run, width, height, black);
    let colour = run.random.next() as u32;
    for texel in [0xFFFF_FFFF, 0xFFFF_FF00, colour] {
        cubemap(run, width, height, vec![texel; texels]);
    }
}

/// A cubemap of drawn texels, some of them with texels behind level 0.
fn drawn_cubemap(run: &mut Run, width: u32, height: u32) {
    let longer = run.random.below(4) as usize;
    let texels = drawn(&mut run.random, six_faces(width, height) + longer);
    cubemap(run, width, height, texels);
}

/// One bright texel in black: on each face at the corners, at the middles of the edges and at the centre.
fn one_bright_texel(run: &mut Run, width: u32, height: u32) {
    let mut texels = vec![0xFF; six_faces(width, height)];
    for face in 0..6 {
        for y in [0, height / 2, height - 1] {
            for x in [0, width / 2, width - 1].into_iter().step_by(run.scale.every.min(2)) {
                let place = ((face * height + y) * width + x) as usize;
                let colour = run.random.next() as u32;
                for texel in [0xFFFF_FFFF, 0x0000_0100, colour] {
                    texels[place] = texel;
                    ask(run, CUBEMAP, width, height, &texels);
                }
                texels[place] = 0xFF;
            }
        }
    }
}

/// Drawn cubemaps until enough texels were gone through.
fn drawn_cubemaps(run: &mut Run) {
    let mut texels = 0;
    while texels < run.scale.texels {
        let longest = if run.random.one_in(10) { 64 } else { 24 };
        let (width, height) = (
            run.random.between(1, longest) as u32,
            run.random.between(1, longest) as u32,
        );
        drawn_cubemap(run, width, height);
        texels += six_faces(width, height) as u64;
    }
}
