//! Smaller pictures for document 02's calls that read level 0: parts of a call's picture, each lent as the whole was.

use crate::call::{Call, Outcome, UNTOUCHED};
use crate::plain::{level_texels, ranges_bytes, Document01, Lent, Replacement};
use crate::text::first;

/// Sides that parts have: the least, and those around a tile's.
const SIDES: [u32; 8] = [1, 2, 3, 15, 16, 17, 32, 33];

/// Which call a part is for.
#[derive(Clone, Copy)]
enum Asked {
    Ranges,
    Replacement(Replacement),
    Irradiance,
}

/// A part with buffers of its own, each as much too short or too long as that of the whole.
pub struct Part {
    kind: u32,
    sides: (u32, u32),
    texels: Vec<u32>,
    ranges: Vec<u8>,
    asked: Asked,
}

impl Part {
    /// The call on the part.
    pub fn call(&self) -> Call<'_> {
        let (width, height) = self.sides;
        let picture = Lent {
            kind: self.kind,
            width,
            height,
            texels: &self.texels,
        };
        let ranges = &self.ranges;
        match self.asked {
            Asked::Ranges => Call::BuildRanges { picture, ranges },
            Asked::Replacement(replacement) => Call::ReplaceTexel {
                picture,
                ranges,
                replacement,
            },
            Asked::Irradiance => Call::IrradianceSh4 { picture },
        }
    }
}

/// Parts of a call's picture: from its corner, and from the corner of the tile where two outcomes differ.
pub fn parts(call: &Call, expected: &Outcome, got: &Outcome) -> Vec<Part> {
    let (picture, asked) = match call {
        Call::BuildRanges { picture, .. } => (picture, Asked::Ranges),
        Call::ReplaceTexel {
            picture, replacement, ..
        } => (picture, Asked::Replacement(*replacement)),
        Call::IrradianceSh4 { picture } => (picture, Asked::Irradiance),
        _ => return Vec::new(),
    };
    let columns = picture.width.div_ceil(16).max(1) as usize;
    let tile = first(&expected.ranges, &got.ranges).map_or(0, |byte| byte / 8);
    let differs = ((tile % columns) as u32 * 16, (tile / columns) as u32 * 16);
    let is_inside = |(x, y): (u32, u32), (width, height): (u32, u32)| {
        x.saturating_add(width) <= picture.width && y.saturating_add(height) <= picture.height
    };
    let mut parts = Vec::new();
    for corner in [(0, 0), differs] {
        for sides in SIDES.iter().flat_map(|width| SIDES.map(|height| (*width, height))) {
            if is_inside(corner, sides) {
                parts.push(part(picture, call.ranges_before(), asked, corner, sides));
            }
        }
    }
    parts
}

/// The part with this corner and these sides, of each face.
fn part(picture: &Lent, ranges: &[u8], asked: Asked, corner: (u32, u32), sides: (u32, u32)) -> Part {
    let whole = (picture.width, picture.height);
    let level_0 = |sides: (u32, u32)| level_texels::<Document01>(picture.kind, sides.0, sides.1, 0);
    let bytes = |sides: (u32, u32)| ranges_bytes(sides.0, sides.1);
    let texel = |i: usize| {
        let (column, row) = (i as u32 % sides.0, i as u32 / sides.0);
        let (x, y) = (column + corner.0, row % sides.1 + corner.1);
        let row_of_faces = (row / sides.1) as usize * picture.height as usize + y as usize;
        let place = row_of_faces * picture.width as usize + x as usize;
        picture.texels.get(place).copied().unwrap_or(UNTOUCHED)
    };
    Part {
        kind: picture.kind,
        sides,
        texels: (0..as_off(picture.texels.len(), level_0(whole), level_0(sides)))
            .map(texel)
            .collect(),
        ranges: ranges[..as_off(ranges.len(), bytes(whole), bytes(sides)).min(ranges.len())].to_vec(),
        asked: match asked {
            Asked::Replacement(r) => Asked::Replacement(Replacement {
                x: within(r.x, whole.0, corner.0, sides.0),
                y: within(r.y, whole.1, corner.1, sides.1),
                texel: r.texel,
            }),
            other => other,
        },
    }
}

/// A length that is as far from what the part needs as the whole's is from what the whole needs.
fn as_off(length: usize, whole: u128, part: u128) -> usize {
    (part as i128 + length as i128 - whole as i128).max(0) as usize
}

/// A place along a side of the part: as far outside as it was, or inside.
fn within(place: u32, whole: u32, corner: u32, side: u32) -> u32 {
    if place >= whole {
        side.saturating_add(place - whole)
    } else {
        place.saturating_sub(corner).min(side - 1)
    }
}
