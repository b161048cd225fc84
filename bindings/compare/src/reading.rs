//! The plain reading as a unit, by any rules: 01's own, or those with one slip.

use crate::plain::{self, Answer, Cut, Lanes, Lent, Replacement, Rules, Verdict};
use crate::unit::{Directions, Picture, Unit};
use std::marker::PhantomData;

/// The plain reading by the rules R.
pub struct Reading<R>(PhantomData<R>);

impl<R: Rules> Reading<R> {
    pub const NEW: Self = Reading(PhantomData);
}

/// Writes the answer and gives 0, or gives the refusal number and writes nothing.
fn put<T>(answer: Answer<T>, place: &mut T) -> u32 {
    match answer {
        Ok(value) => {
            *place = value;
            0
        }
        Err(refusal) => refusal,
    }
}

#[rustfmt::skip]
impl<R: Rules> Unit for Reading<R> {
    fn level_sizes(&self, kind: u32, width: u32, height: u32, level: u32, sizes: &mut [u64; 4]) -> u32 {
        put(plain::level_sizes::<R>(kind, width, height, level), sizes)
    }

    fn generate_mipmaps(&self, kind: u32, width: u32, height: u32, mode: u32, texels: &mut [u32],
                        written: &mut u64) -> u32 {
        put(plain::generate_mipmaps::<R>(kind, width, height, mode, texels), written)
    }

    fn cut_cross(&self, width: u32, height: u32, bytes: &[u8], faces: &mut [u32], written: &mut u64) -> u32 {
        put(plain::cut_cross::<R>(width, height, bytes, faces), written)
    }

    fn cut(&self, source: &Lent, cut: &Cut, target: &mut [u32], written: &mut u64) -> u32 {
        put(plain::cut::<R>(source, cut, target), written)
    }

    fn level_view(&self, picture: &Lent, level: u32, face: u32, part: &mut [u64; 2]) -> u32 {
        put(plain::level_view::<R>(picture, level, face), part)
    }

    fn compute_mip_level(&self, width: u32, height: u32, steps: &Lanes, level: &mut u32) -> u32 {
        put(plain::compute_mip_level::<R>(width, height, steps), level)
    }

    fn sample4_rgb(&self, picture: &Picture, codes: [u32; 2], u: &Lanes, v: &Lanes, steps: &Lanes,
                   rgb: &mut [f32; 12]) -> u32 {
        put(plain::sample4_rgb::<R>(&picture.lent, codes, u, v, steps), rgb)
    }

    fn sample4_alpha(&self, picture: &Picture, codes: [u32; 2], u: &Lanes, v: &Lanes, steps: &Lanes,
                     alpha: &mut Lanes) -> u32 {
        put(plain::sample4_alpha::<R>(&picture.lent, codes, u, v, steps), alpha)
    }

    fn sample_bilinear_rgb(&self, picture: &Picture, codes: [u32; 2], u: &Lanes, v: &Lanes, level: u32,
                           faces: &[u32; 4], rgb: &mut [f32; 12]) -> u32 {
        put(plain::sample_bilinear_rgb::<R>(&picture.lent, codes, u, v, level, faces), rgb)
    }

    fn sample_bilinear_alpha(&self, picture: &Picture, codes: [u32; 2], u: &Lanes, v: &Lanes, level: u32,
                             alpha: &mut Lanes) -> u32 {
        put(plain::sample_bilinear_alpha::<R>(&picture.lent, codes, u, v, level), alpha)
    }

    fn cubemap_uv_from_normal(&self, d: &Directions, uv: &mut [f32; 8], faces: &mut [u32; 4]) -> u32 {
        let mut both = (*uv, *faces);
        let refusal = put(plain::cubemap_uv_from_normal::<R>(&d.x, &d.y, &d.z), &mut both);
        (*uv, *faces) = both;
        refusal
    }

    fn sample_cubemap_rgb(&self, picture: &Picture, d: &Directions, levels: &[u32; 4], rgb: &mut [f32; 12]) -> u32 {
        put(plain::sample_cubemap_rgb::<R>(&picture.lent, &d.x, &d.y, &d.z, levels), rgb)
    }

    fn sample_cubemap_trilinear_rgb(&self, picture: &Picture, d: &Directions, levels: &Lanes,
                                    rgb: &mut [f32; 12]) -> u32 {
        put(plain::sample_cubemap_trilinear_rgb::<R>(&picture.lent, &d.x, &d.y, &d.z, levels), rgb)
    }

    fn build_ranges(&self, picture: &Lent, ranges: &mut [u8], written: &mut u64) -> u32 {
        put(plain::build_ranges::<R>(picture, ranges), written)
    }

    fn replace_texel(&self, kind: u32, width: u32, height: u32, texels: &mut [u32], ranges: &mut [u8],
                     replacement: &Replacement) -> u32 {
        put(plain::replace_texel::<R>(kind, width, height, texels, ranges, replacement), &mut ())
    }

    fn irradiance_sh4(&self, picture: &Lent, sh: &mut [f32; 12]) -> u32 {
        put(plain::irradiance_sh4::<R>(picture), sh)
    }

    fn check_chain(&self, picture: &Lent, mode: u32, verdict: &mut Verdict) -> u32 {
        put(plain::check_chain::<R>(picture, mode), verdict)
    }

    fn check_level(&self, picture: &Lent, mode: u32, level: u32, verdict: &mut Verdict) -> u32 {
        put(plain::check_level::<R>(picture, mode, level), verdict)
    }
}
