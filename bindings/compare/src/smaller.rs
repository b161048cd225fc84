//! From a call that shows a difference to a smaller one that shows it too.

use crate::call::{ask, Call, Outcome, UNTOUCHED};
use crate::left_out::left_out;
use crate::parts::parts;
use crate::plain::{Lanes, Lent, CUBEMAP};
use crate::tails::{four_texels, tails};
use crate::text::{first, shown, Shown};
use crate::unit::{Directions, Unit};

/// The difference of the smallest call found, the call itself where none is smaller.
pub fn smaller(
    reading: &dyn Unit,
    other: &dyn Unit,
    is_source: bool,
    call: &Call,
    expected: &Outcome,
    got: &Outcome,
) -> Shown {
    let mut least = shown(call, expected, got);
    let mut attempt = |call: &Call| {
        let (mut a, mut b) = (Outcome::new(), Outcome::new());
        ask(reading, call, &mut a);
        if is_source && (a.refusal != 0 || !other.has(call)) {
            return;
        }
        ask(other, call, &mut b);
        if is_source {
            left_out(call, &a, &mut b, 0);
        }
        let found = shown(call, &a, &b);
        if a != b && found.size < least.size {
            least = found;
        }
    };
    if let Some((kind, mode, texels)) = square(call, expected, got) {
        attempt(&Call::GenerateMipmaps {
            kind,
            width: 2,
            height: 2,
            mode,
            texels: &texels,
        });
    }
    for lane in 0..4 {
        if let Some(call) = one_lane(call, lane) {
            attempt(&call);
        }
    }
    for part in parts(call, expected, got) {
        attempt(&part.call());
    }
    for tail in tails(call, expected, got) {
        attempt(&tail.call());
    }
    least
}

/// The picture of the four texels from which a chain's first wrong texel was to be made: its kind, its mode and its texels.
fn square(call: &Call, expected: &Outcome, got: &Outcome) -> Option<(u32, u32, Vec<u32>)> {
    let Call::GenerateMipmaps {
        kind,
        width,
        height,
        mode,
        ..
    } = *call
    else {
        return None;
    };
    let chain = Lent {
        kind,
        width,
        height,
        texels: &expected.buffer,
    };
    let four = four_texels(&chain, first(&expected.buffer, &got.buffer)?)?;
    let faces = if kind == CUBEMAP { 6 } else { 1 };
    let mut texels = four.repeat(faces);
    texels.resize(5 * faces, UNTOUCHED);
    Some((kind, mode, texels))
}

/// The call with one of its lanes in the place of all four.
fn one_lane<'a>(call: &Call<'a>, lane: usize) -> Option<Call<'a>> {
    let mut call = *call;
    let same = |lanes: &mut Lanes| *lanes = [lanes[lane]; 4];
    let same_direction = |d: &mut Directions| {
        d.x = [d.x[lane]; 4];
        d.y = [d.y[lane]; 4];
        d.z = [d.z[lane]; 4];
    };
    match &mut call {
        Call::Sample4Rgb { u, v, .. } | Call::Sample4Alpha { u, v, .. } | Call::SampleBilinearAlpha { u, v, .. } => {
            same(u);
            same(v);
        }
        Call::SampleBilinearRgb { u, v, faces, .. } => {
            same(u);
            same(v);
            *faces = [faces[lane]; 4];
        }
        Call::CubemapUvFromNormal { directions } => same_direction(directions),
        Call::SampleCubemapRgb { directions, levels, .. } => {
            same_direction(directions);
            *levels = [levels[lane]; 4];
        }
        Call::SampleCubemapTrilinearRgb { directions, levels, .. } => {
            same_direction(directions);
            same(levels);
        }
        _ => return None,
    }
    Some(call)
}
