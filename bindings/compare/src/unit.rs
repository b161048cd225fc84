//! What is compared: anything that has the calls of swathecold.h. Each call answers a refusal number or 0, and writes
//! what it has to say only where it answers 0.

use crate::call::Call;
use crate::plain::{Cut, Lanes, Lent, Replacement, Verdict};

/// A picture lent to lookups. Equal numbers stand for equal texels, so a unit may keep what it made of them.
#[derive(Clone, Copy)]
pub struct Picture<'a> {
    pub number: u64,
    pub lent: Lent<'a>,
}

/// Directions: x, y, z, four lanes each.
#[derive(Clone, Copy)]
pub struct Directions {
    pub x: Lanes,
    pub y: Lanes,
    pub z: Lanes,
}

/// The calls of swathecold.h.
#[rustfmt::skip]
pub trait Unit {
    /// Whether it has this call at all, with its refusals.
    fn has(&self, _call: &Call) -> bool { true }

    fn level_sizes(&self, kind: u32, width: u32, height: u32, level: u32, sizes: &mut [u64; 4]) -> u32;
    fn generate_mipmaps(&self, kind: u32, width: u32, height: u32, mode: u32, texels: &mut [u32],
                        written: &mut u64) -> u32;
    fn cut_cross(&self, width: u32, height: u32, bytes: &[u8], faces: &mut [u32], written: &mut u64) -> u32;
    fn cut(&self, source: &Lent, cut: &Cut, target: &mut [u32], written: &mut u64) -> u32;
    fn level_view(&self, picture: &Lent, level: u32, face: u32, part: &mut [u64; 2]) -> u32;
    fn compute_mip_level(&self, width: u32, height: u32, steps: &Lanes, level: &mut u32) -> u32;
    fn sample4_rgb(&self, picture: &Picture, codes: [u32; 2], u: &Lanes, v: &Lanes, steps: &Lanes,
                   rgb: &mut [f32; 12]) -> u32;
    fn sample4_alpha(&self, picture: &Picture, codes: [u32; 2], u: &Lanes, v: &Lanes, steps: &Lanes,
                     alpha: &mut Lanes) -> u32;
    fn sample_bilinear_rgb(&self, picture: &Picture, codes: [u32; 2], u: &Lanes, v: &Lanes, level: u32,
                           faces: &[u32; 4], rgb: &mut [f32; 12]) -> u32;
    fn sample_bilinear_alpha(&self, picture: &Picture, codes: [u32; 2], u: &Lanes, v: &Lanes, level: u32,
                             alpha: &mut Lanes) -> u32;
    fn cubemap_uv_from_normal(&self, directions: &Directions, uv: &mut [f32; 8], faces: &mut [u32; 4]) -> u32;
    fn sample_cubemap_rgb(&self, picture: &Picture, directions: &Directions, levels: &[u32; 4],
                          rgb: &mut [f32; 12]) -> u32;
    fn sample_cubemap_trilinear_rgb(&self, picture: &Picture, directions: &Directions, levels: &Lanes,
                                    rgb: &mut [f32; 12]) -> u32;
    fn build_ranges(&self, picture: &Lent, ranges: &mut [u8], written: &mut u64) -> u32;
    fn replace_texel(&self, kind: u32, width: u32, height: u32, texels: &mut [u32], ranges: &mut [u8],
                     replacement: &Replacement) -> u32;
    fn irradiance_sh4(&self, picture: &Lent, sh: &mut [f32; 12]) -> u32;
    fn check_chain(&self, picture: &Lent, mode: u32, verdict: &mut Verdict) -> u32;
    fn check_level(&self, picture: &Lent, mode: u32, level: u32, verdict: &mut Verdict) -> u32;
}
