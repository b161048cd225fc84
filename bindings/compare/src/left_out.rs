//! What is left out of the comparison with the source, and only with the source: exact halves in cubemap lookups, and
//! the colour channels of SRGB levels.

use crate::call::{Call, Outcome};
use crate::plain::{has_exact_half, top_level, trilinear_levels, Document01, SRGB};
use crate::text::{shown, size, Shown};
use crate::unit::Directions;

/// Places left out: how many, how many of them differ, and the call where one does.
#[derive(Default)]
pub struct LeftOut {
    pub places: u64,
    pub differing: u64,
    pub shown: Option<Shown>,
}

/// Gives the source's outcome the reading's word at the places that are left out, and counts them. A call that differs
/// there is put in words where it is smaller than `than`.
pub fn left_out(call: &Call, expected: &Outcome, got: &mut Outcome, than: u64) -> LeftOut {
    if !has_places(call) {
        return LeftOut::default();
    }
    let before = (size(call) < than).then(|| got.clone());
    let (places, differing) = match call {
        Call::GenerateMipmaps { .. } => colours(call, expected, got),
        Call::SampleCubemapRgb {
            picture,
            directions,
            levels,
        } => {
            let top = top_level(picture.lent.width, picture.lent.height);
            halves(call, directions, |lane| [levels[lane].min(top); 2], expected, got)
        }
        Call::SampleCubemapTrilinearRgb {
            picture,
            directions,
            levels,
        } => {
            let top = top_level(picture.lent.width, picture.lent.height);
            let both = |lane: usize| {
                let (lower, upper, _) = trilinear_levels(levels[lane], top);
                [lower, upper]
            };
            halves(call, directions, both, expected, got)
        }
        _ => (0, 0),
    };
    let shown = before.filter(|_| differing > 0).map(|got| shown(call, expected, &got));
    LeftOut {
        places,
        differing,
        shown,
    }
}

/// Whether anything of the call is left out at all.
fn has_places(call: &Call) -> bool {
    match call {
        Call::GenerateMipmaps { kind, .. } => *kind == SRGB,
        Call::SampleCubemapRgb { .. } | Call::SampleCubemapTrilinearRgb { .. } => true,
        _ => false,
    }
}

/// SRGB colour: of each texel made only alpha is compared.
fn colours(call: &Call, expected: &Outcome, got: &mut Outcome) -> (u64, u64) {
    let (width, height) = call.sides();
    let made = width as usize * height as usize..expected.words[0] as usize;
    let mut differing = 0;
    for i in made.clone() {
        differing += ((expected.buffer[i] ^ got.buffer[i]) >> 8 != 0) as u64;
        got.buffer[i] = got.buffer[i] & 0xFF | expected.buffer[i] & 0xFFFF_FF00;
    }
    (made.len() as u64, differing)
}

/// Exact halves: a lane whose place is a half between two texels of a level read.
fn halves(
    call: &Call,
    d: &Directions,
    levels: impl Fn(usize) -> [u32; 2],
    expected: &Outcome,
    got: &mut Outcome,
) -> (u64, u64) {
    let (width, height) = call.sides();
    let (mut places, mut differing) = (0, 0);
    for lane in 0..4 {
        let direction = [d.x[lane], d.y[lane], d.z[lane]];
        let half = |m: u32| has_exact_half::<Document01>(width, height, direction, m);
        if !levels(lane).into_iter().any(half) {
            continue;
        }
        let words = [lane, 4 + lane, 8 + lane];
        places += 1;
        differing += words.iter().any(|&i| expected.words[i] != got.words[i]) as u64;
        for i in words {
            got.words[i] = expected.words[i];
        }
    }
    (places, differing)
}
