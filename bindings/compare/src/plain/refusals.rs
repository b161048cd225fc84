//! Refusal numbers: which of those that hold is given.

use super::rules::Rules;
use super::sizes::{chain_texels, level_texels};
use super::{Answer, Lanes, Lent};

/// Of the refusals whose condition holds, the first in 01's order is given.
pub fn first<R: Rules>(conditions: &[(u32, bool)]) -> Answer<()> {
    for number in R::ORDER {
        if conditions.contains(&(number, true)) {
            return Err(number);
        }
    }
    Ok(())
}

/// 1: kind above 4.
pub fn bad_kind(kind: u32) -> bool {
    kind > 4
}

/// 2: a picture's side is 0 or above 4,096.
pub fn bad_side(side: u32) -> bool {
    side == 0 || side > 4096
}

/// 2, for both sides.
pub fn bad_sides(width: u32, height: u32) -> bool {
    bad_side(width) || bad_side(height)
}

/// 3: a lent buffer is shorter than what is read or filled there.
pub fn too_short(length: usize, needed: u128) -> bool {
    (length as u128) < needed
}

/// 1, 2 and 3 of a call that is lent so many texels at least.
fn of_picture(lent: &Lent, needed: u128) -> [(u32, bool); 3] {
    [
        (1, bad_kind(lent.kind)),
        (2, bad_sides(lent.width, lent.height)),
        (3, too_short(lent.texels.len(), needed)),
    ]
}

/// 1, 2 and 3 of a call that is lent a whole chain.
pub fn of_chain<R: Rules>(lent: &Lent) -> [(u32, bool); 3] {
    of_picture(lent, chain_texels::<R>(lent.kind, lent.width, lent.height))
}

/// 1, 2 and 3 of a call that is lent level 0.
pub fn of_level_0<R: Rules>(lent: &Lent) -> [(u32, bool); 3] {
    of_picture(lent, level_texels::<R>(lent.kind, lent.width, lent.height, 0))
}

/// 15: a mode of packing that is unknown.
pub fn bad_mode(mode: u32) -> bool {
    mode > 1
}

/// 5: a coordinate is not finite, or its magnitude is above 2,048.
pub fn bad_coordinates<R: Rules>(u: &Lanes, v: &Lanes) -> bool {
    u.iter().chain(v).any(|c| !R::coordinate_taken(*c))
}

/// 5: a step or a fractional level is not finite.
pub fn not_finite(values: &Lanes) -> bool {
    values.iter().any(|value| !value.is_finite())
}

/// 7, one bad lane refuses all four.
pub fn bad_directions<R: Rules>(x: &Lanes, y: &Lanes, z: &Lanes) -> bool {
    (0..4).any(|lane| !R::direction_taken([x[lane], y[lane], z[lane]]))
}
