//! Cubemap lookups: `sample_cubemap_rgb` and `sample_cubemap_trilinear_rgb`.

use super::face::on_face;
use super::refusals::{bad_directions, first, not_finite, of_chain};
use super::rules::Rules;
use super::sizes::top_level;
use super::texel::{by_channel, level, read};
use super::{Answer, Lanes, Lent, CUBEMAP};

/// The colour of the nearest texel: round(u * (width - 1)) of the level read, a half to the even neighbour.
fn nearest_colour<R: Rules>(lent: &Lent, direction: [f32; 3], m: u32) -> [f32; 3] {
    let level = level::<R>(lent, m);
    let on = on_face::<R>(direction);
    let x = R::nearest_place(on.u * (level.width - 1) as f32);
    let y = R::nearest_place(on.v * (level.height - 1) as f32);
    let [r, g, b, _] = read::<R>(&level, on.face, x as i64, y as i64);
    [r, g, b]
}

/// `sample_cubemap_rgb`: 1, 2, 3, 8 (not a cubemap), 7. Whole-number levels are lowered to the top level.
pub fn sample_cubemap_rgb<R: Rules>(
    lent: &Lent,
    x: &Lanes,
    y: &Lanes,
    z: &Lanes,
    levels: &[u32; 4],
) -> Answer<[f32; 12]> {
    let [one, two, three] = of_chain::<R>(lent);
    let eight = (8, lent.kind != CUBEMAP);
    first::<R>(&[one, two, three, eight, (7, bad_directions::<R>(x, y, z))])?;
    let top = top_level(lent.width, lent.height);
    Ok(by_channel(std::array::from_fn(|lane| {
        let m = R::lowered(levels[lane], top);
        nearest_colour::<R>(lent, [x[lane], y[lane], z[lane]], m)
    })))
}

/// Level held to 0..top, lower level l, upper min(l+1, top); the fraction t between them.
pub fn trilinear_levels(fractional: f32, top: u32) -> (u32, u32, f32) {
    let held = fractional.max(0.0).min(top as f32);
    let lower = held.floor();
    (lower as u32, (lower as u32 + 1).min(top), held - lower)
}

/// `sample_cubemap_trilinear_rgb`: 1, 2, 3, 8 (not a cubemap), 7, 5.
pub fn sample_cubemap_trilinear_rgb<R: Rules>(
    lent: &Lent,
    x: &Lanes,
    y: &Lanes,
    z: &Lanes,
    levels: &Lanes,
) -> Answer<[f32; 12]> {
    let [one, two, three] = of_chain::<R>(lent);
    first::<R>(&[
        one,
        two,
        three,
        (8, lent.kind != CUBEMAP),
        (7, bad_directions::<R>(x, y, z)),
        (5, not_finite(levels)),
    ])?;
    let top = top_level(lent.width, lent.height);
    Ok(by_channel(std::array::from_fn(|lane| {
        let direction = [x[lane], y[lane], z[lane]];
        let (lower, upper, t) = trilinear_levels(levels[lane], top);
        let c0 = nearest_colour::<R>(lent, direction, lower);
        let c1 = nearest_colour::<R>(lent, direction, upper);
        [0, 1, 2].map(|channel| R::between_levels(c0[channel], c1[channel], t))
    })))
}

/// Whether u * (width - 1) or v * (height - 1) of an accepted direction at level m is an exact half.
pub fn has_exact_half<R: Rules>(width: u32, height: u32, direction: [f32; 3], m: u32) -> bool {
    let on = on_face::<R>(direction);
    let half = |q: f32, side: u32| {
        let place = q * (R::level_side(side, m) - 1) as f32;
        place - place.floor() == 0.5
    };
    half(on.u, width) || half(on.v, height)
}
