//! The level view.

use super::refusals::{first, of_chain};
use super::rules::Rules;
use super::sizes::{face_texels, level_start, top_level};
use super::{Answer, Lent, CUBEMAP};

/// 8: face above 5 for a cubemap, or not 0 for another kind.
pub fn bad_face(kind: u32, face: u32) -> bool {
    if kind == CUBEMAP {
        face > 5
    } else {
        face != 0
    }
}

/// The level itself (a cubemap: one face of it), as part of the caller's texels: its first texel and its length.
/// 1, 2, 3, 8 (a face), 6.
pub fn level_view<R: Rules>(lent: &Lent, level: u32, face: u32) -> Answer<[u64; 2]> {
    let [one, two, three] = of_chain::<R>(lent);
    first::<R>(&[
        one,
        two,
        three,
        (8, bad_face(lent.kind, face)),
        (6, level > top_level(lent.width, lent.height)),
    ])?;
    let length = face_texels::<R>(lent.width, lent.height, level) as u64;
    let start = level_start::<R>(lent.kind, lent.width, lent.height, level) as u64;
    Ok([start + face as u64 * length, length])
}
