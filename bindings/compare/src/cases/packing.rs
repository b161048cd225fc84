//! Packing: the chains of nearest mode, squares about every half in rows about as long as a part, pictures one texel wide, and
//! modes that are unknown.

use super::chains::{chain, of_mode};
use super::squares::{of_ends, of_every_sum, of_roots, Square, JUST_BELOW_A_HALF};
use super::texels::drawn;
use super::Run;
use crate::call::Call;
use crate::plain::{chain_texels, Document01, CUBEMAP, NEAREST};

/// Squares along a row: one, and about as many as the parts of 64 and of 128 texels that a row is made by.
const COLUMNS: [usize; 6] = [1, 63, 64, 65, 128, 129];

/// Rows of squares in a picture, at most.
const ROWS: usize = 256;

/// Runs the part.
pub fn run(run: &mut Run) {
    of_mode(run, NEAREST);
    let every = run.scale.every;
    let mut about_halves = of_every_sum(&mut run.random);
    about_halves.extend(of_roots(&mut run.random));
    about_halves.extend(of_ends());
    let mut about_halves: Vec<Square> = about_halves.into_iter().step_by(every).collect();
    about_halves.extend(JUST_BELOW_A_HALF);
    for kind in 0..=4 {
        for columns in COLUMNS.into_iter().step_by(every.min(3)) {
            for squares in about_halves.chunks(columns * ROWS) {
                picture(run, kind, columns, squares);
            }
        }
        one_texel_wide(run, kind);
    }
    modes(run);
}

/// A picture of squares, so many along a row; the last row may have black ones. Each channel goes round a square from
/// another corner, and each face of a cubemap has them all.
fn picture(run: &mut Run, kind: u32, columns: usize, squares: &[Square]) {
    let rows = squares.len().div_ceil(columns);
    let width = 2 * columns;
    let mut texels = vec![0; width * 2 * rows];
    for (n, square) in squares.iter().enumerate() {
        let first = n / columns * 2 * width + n % columns * 2;
        for (corner, place) in [first, first + 1, first + width, first + width + 1]
            .into_iter()
            .enumerate()
        {
            texels[place] = u32::from_be_bytes(std::array::from_fn(|channel| square[(corner + channel) % 4]));
        }
    }
    let faces = if kind == CUBEMAP { 6 } else { 1 };
    chain(
        run,
        kind,
        width as u32,
        2 * rows as u32,
        NEAREST,
        texels.repeat(faces),
        0,
    );
}

/// Bytes beside the next one and beside both ends, two by two along a picture one texel wide, and along one a texel high.
fn one_texel_wide(run: &mut Run, kind: u32) {
    let beside = |k: u32| [k, k + 1, 0, k, k, 255, k + 1, k];
    let strip: Vec<u32> = (0..255).flat_map(beside).map(|byte| byte * 0x0101_0101).collect();
    let faces = if kind == CUBEMAP { 6 } else { 1 };
    let length = strip.len() as u32;
    chain(run, kind, 1, length, NEAREST, strip.repeat(faces), 0);
    chain(run, kind, length, 1, NEAREST, strip.repeat(faces), 0);
}

/// Nearest mode and unknown ones, with kinds, sides and lengths that are taken and that are refused.
fn modes(run: &mut Run) {
    let sides = [
        (1, 1),
        (2, 1),
        (1, 2),
        (5, 3),
        (130, 2),
        (0, 1),
        (1, 4097),
        (1 << 31, u32::MAX),
    ];
    for mode in [NEAREST, 2, 3, 4, 255, 256, 65537, 1 << 31, u32::MAX] {
        for kind in [0, 1, 2, 3, 4, 5, u32::MAX] {
            for (width, height) in sides {
                by_length(run, kind, width, height, mode);
            }
        }
    }
}

/// Texels none, one short of the chain, exact, and longer.
fn by_length(run: &mut Run, kind: u32, width: u32, height: u32, mode: u32) {
    // No buffer is made for a side that is refused.
    let held = |side: u32| if side == 0 || side > 4096 { 16 } else { side };
    let exact = chain_texels::<Document01>(kind, held(width), held(height)) as usize;
    let texels = drawn(&mut run.random, exact + 3);
    for length in [0, exact - 1, exact, exact + 3] {
        run.call(&Call::GenerateMipmaps {
            kind,
            width,
            height,
            mode,
            texels: &texels[..length],
        });
    }
}
