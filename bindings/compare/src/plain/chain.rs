//! The chain: level 0 is already in the buffer, the chain call fills the rest.

use super::reduce::reduced;
use super::refusals::{bad_mode, first, of_chain};
use super::rules::Rules;
use super::sizes::{chain_texels, face_count, face_texels, level_start, top_level};
use super::{Answer, Lent};

/// `generate_mipmaps` (1, 2, 3, 15) answers the chain's texel count. Entries past it stay as found.
pub fn generate_mipmaps<R: Rules>(kind: u32, width: u32, height: u32, mode: u32, texels: &mut [u32]) -> Answer<u64> {
    let [one, two, three] = of_chain::<R>(&Lent {
        kind,
        width,
        height,
        texels,
    });
    first::<R>(&[one, two, three, (15, bad_mode(mode))])?;
    for m in 1..=top_level(width, height) {
        make_level::<R>(kind, width, height, mode, m, texels);
    }
    Ok(chain_texels::<R>(kind, width, height) as u64)
}

/// Level m of an accepted chain, made from the one before.
pub fn make_level<R: Rules>(kind: u32, width: u32, height: u32, mode: u32, m: u32, texels: &mut [u32]) {
    for face in 0..face_count(kind) {
        reduce_face::<R>(kind, width, height, mode, m, face, texels);
    }
}

/// Each level is made from the one before, by the same mode: one face of level m, row by row.
fn reduce_face<R: Rules>(kind: u32, width: u32, height: u32, mode: u32, m: u32, face: u32, texels: &mut [u32]) {
    let from = R::made_from(m);
    let place_of_face = |level: u32| {
        let start = level_start::<R>(kind, width, height, level) as usize;
        start + face as usize * face_texels::<R>(width, height, level) as usize
    };
    let (read, mut write) = (place_of_face(from), place_of_face(m));
    let (previous_width, previous_height) = (R::level_side(width, from), R::level_side(height, from));
    let at = |x: u32, y: u32| read + y as usize * previous_width as usize + x as usize;
    for y in 0..R::level_side(height, m) {
        for x in 0..R::level_side(width, m) {
            let (x0, y0) = (2 * x, 2 * y);
            let (x1, y1) = (R::second(x0, previous_width), R::second(y0, previous_height));
            let p = [at(x0, y0), at(x1, y0), at(x0, y1), at(x1, y1)].map(|place| texels[place]);
            texels[write] = reduced::<R>(kind, mode, p);
            write += 1;
        }
    }
}
