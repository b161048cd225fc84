//! The level rule.

use super::refusals::{bad_sides, first, not_finite};
use super::rules::Rules;
use super::sizes::top_level;
use super::{Answer, Lanes};

/// `compute_mip_level` takes two sides and four steps (2, 5).
pub fn compute_mip_level<R: Rules>(width: u32, height: u32, steps: &Lanes) -> Answer<u32> {
    first::<R>(&[(2, bad_sides(width, height)), (5, not_finite(steps))])?;
    Ok(level_of_steps::<R>(width, height, steps))
}

/// With X, Y the first two steps times width and Z, W the last two times height: the level of the footprint.
pub fn level_of_steps<R: Rules>(width: u32, height: u32, steps: &Lanes) -> u32 {
    let (width_f, height_f) = (width as f32, height as f32);
    let footprint = R::footprint(
        steps[0] * width_f,
        steps[1] * width_f,
        steps[2] * height_f,
        steps[3] * height_f,
    );
    R::lowered(greatest_power(footprint), top_level(width, height))
}

/// The greatest m with 4^m at most max(footprint, 1); for one of 4^16 or more, infinite ones too, 16 stands for it.
fn greatest_power(footprint: f32) -> u32 {
    let mut m = 0;
    while m < 16 && f32::powi(4.0, m as i32 + 1) <= footprint {
        m += 1;
    }
    m
}
