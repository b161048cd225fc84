//! Bilinear lookups: `sample_bilinear_rgb` and `sample_bilinear_alpha`.

use super::refusals::{bad_coordinates, first, of_chain};
use super::rules::Rules;
use super::sizes::top_level;
use super::texel::{by_channel, level, read, Level};
use super::view::bad_face;
use super::wrap::Wraps;
use super::{Answer, Lanes, Lent, CUBEMAP};

/// A texel number and the one after it, with the fraction between them.
struct Between {
    first: i64,
    second: i64,
    fraction: f32,
}

/// x_f = u * width - 0.5, x0 = floor, x1 = x0 + 1, fx = x_f - x0 (it may be exactly 1).
fn between<R: Rules>(coordinate: f32, side: u32) -> Between {
    let place = R::bilinear_place(coordinate, side as f32);
    let floor = place.floor();
    Between {
        first: floor as i64,
        second: (floor + 1.0) as i64,
        fraction: R::fraction(place, floor),
    }
}

/// One lane's four texels p00, p10, p01, p11 and its two fractions.
struct Corners {
    texels: [[f32; 4]; 4],
    fx: f32,
    fy: f32,
}

/// The corners of one lane.
fn corners<R: Rules>(level: &Level, wraps: &Wraps, face: u32, u: f32, v: f32) -> Corners {
    let (x, y) = (between::<R>(u, level.width), between::<R>(v, level.height));
    let numbers = [
        (x.first, y.first),
        (x.second, y.first),
        (x.first, y.second),
        (x.second, y.second),
    ];
    Corners {
        texels: numbers.map(|(x, y)| {
            let (x, y) = wraps.place::<R>(x, y, level.width, level.height);
            read::<R>(level, face, x, y)
        }),
        fx: x.fraction,
        fy: y.fraction,
    }
}

/// `sample_bilinear_rgb`: 1, 2, 3, 8 (a face), 4, 6, 5.
pub fn sample_bilinear_rgb<R: Rules>(
    lent: &Lent,
    codes: [u32; 2],
    u: &Lanes,
    v: &Lanes,
    m: u32,
    faces: &[u32; 4],
) -> Answer<[f32; 12]> {
    let wraps = Wraps::of::<R>(codes);
    let [one, two, three] = of_chain::<R>(lent);
    first::<R>(&[
        one,
        two,
        three,
        (8, faces.iter().any(|face| bad_face(lent.kind, *face))),
        (4, wraps.unknown()),
        (6, m > top_level(lent.width, lent.height)),
        (5, bad_coordinates::<R>(u, v)),
    ])?;
    let level = level::<R>(lent, m);
    Ok(by_channel(std::array::from_fn(|lane| {
        let c = corners::<R>(&level, &wraps, faces[lane], u[lane], v[lane]);
        [0, 1, 2].map(|channel| R::blend_colour(c.texels.map(|p| p[channel]), c.fx, c.fy))
    })))
}

/// `sample_bilinear_alpha`: 1, 2, 3, 8 (a cubemap), 4, 6, 5.
pub fn sample_bilinear_alpha<R: Rules>(lent: &Lent, codes: [u32; 2], u: &Lanes, v: &Lanes, m: u32) -> Answer<Lanes> {
    let wraps = Wraps::of::<R>(codes);
    let [one, two, three] = of_chain::<R>(lent);
    first::<R>(&[
        one,
        two,
        three,
        (8, lent.kind == CUBEMAP),
        (4, wraps.unknown()),
        (6, m > top_level(lent.width, lent.height)),
        (5, bad_coordinates::<R>(u, v)),
    ])?;
    let level = level::<R>(lent, m);
    Ok(std::array::from_fn(|lane| {
        let c = corners::<R>(&level, &wraps, 0, u[lane], v[lane]);
        R::blend_alpha(c.texels.map(|p| p[3]), c.fx, c.fy)
    }))
}
