//! Reducing: one texel of a level from four of the level before.

use super::curve::decoded;
use super::rules::Rules;
use super::texel::{bytes, texel};
use super::{METALLIC_ROUGHNESS, NORMAL, SRGB};

/// The texel of p00, p10, p01, p11 by the rule of the kind, packed by the mode.
pub fn reduced<R: Rules>(kind: u32, mode: u32, p: [u32; 4]) -> u32 {
    match kind {
        SRGB => texel(std::array::from_fn(|c| {
            if c < 3 {
                colour::<R>(mode, of(p, c))
            } else {
                mean::<R>(R::mode_of_alpha(mode), of(p, c))
            }
        })),
        NORMAL => texel(std::array::from_fn(|c| {
            R::pack(mode, R::normal(of(p, c).map(R::unpack)))
        })),
        METALLIC_ROUGHNESS => metallic_roughness::<R>(mode, p),
        _ => texel(std::array::from_fn(|c| mean::<R>(mode, of(p, c)))),
    }
}

/// One channel of four texels, as bytes.
fn of(p: [u32; 4], channel: usize) -> [u32; 4] {
    p.map(|texel| bytes(texel)[channel])
}

/// Linear, Cubemap: the mean of each channel.
fn mean<R: Rules>(mode: u32, p: [u32; 4]) -> u32 {
    R::pack(mode, R::mean(p.map(R::unpack)))
}

/// SRGB colour channels: the mean of the T values, then the greatest k with T(k) at most the mean.
fn colour<R: Rules>(mode: u32, p: [u32; 4]) -> u32 {
    R::encoded(R::mean(p.map(decoded)), mode)
}

/// MetallicRoughness: red and alpha of p00; green the root of the mean of squares; blue the mean.
fn metallic_roughness<R: Rules>(mode: u32, p: [u32; 4]) -> u32 {
    let green = R::pack(mode, R::root_mean_square(of(p, 1).map(R::unpack)));
    let [red, alpha] = [0, 3].map(|c| R::taken_over(of(p, c), mode));
    texel([red, green, mean::<R>(mode, of(p, 2)), alpha])
}
