//! Nearest lookups: `sample4_rgb` and `sample4_alpha`.

use super::level::level_of_steps;
use super::refusals::{bad_coordinates, first, not_finite, of_chain};
use super::rules::Rules;
use super::texel::{by_channel, level, read};
use super::wrap::Wraps;
use super::{Answer, Lanes, Lent, CUBEMAP};

/// The four texels that the four lanes read, or the refusal: 1, 2, 3, 8 (a cubemap), 4, 5.
fn sample4<R: Rules>(lent: &Lent, codes: [u32; 2], u: &Lanes, v: &Lanes, steps: &Lanes) -> Answer<[[f32; 4]; 4]> {
    let wraps = Wraps::of::<R>(codes);
    let [one, two, three] = of_chain::<R>(lent);
    first::<R>(&[
        one,
        two,
        three,
        (8, lent.kind == CUBEMAP),
        (4, wraps.unknown()),
        (5, bad_coordinates::<R>(u, v) || not_finite(steps)),
    ])?;
    let level = level::<R>(lent, level_of_steps::<R>(lent.width, lent.height, steps));
    Ok(std::array::from_fn(|lane| {
        let x = R::texel_number(u[lane], level.width as f32);
        let y = R::texel_number(v[lane], level.height as f32);
        let (x, y) = wraps.place::<R>(x, y, level.width, level.height);
        read::<R>(&level, 0, x, y)
    }))
}

/// `sample4_rgb`: four reds, four greens, four blues.
pub fn sample4_rgb<R: Rules>(lent: &Lent, codes: [u32; 2], u: &Lanes, v: &Lanes, steps: &Lanes) -> Answer<[f32; 12]> {
    let texels = sample4::<R>(lent, codes, u, v, steps)?;
    Ok(by_channel(texels.map(|[r, g, b, _]| [r, g, b])))
}

/// `sample4_alpha`: four alphas.
pub fn sample4_alpha<R: Rules>(lent: &Lent, codes: [u32; 2], u: &Lanes, v: &Lanes, steps: &Lanes) -> Answer<Lanes> {
    let texels = sample4::<R>(lent, codes, u, v, steps)?;
    Ok(texels.map(|[_, _, _, a]| a))
}
