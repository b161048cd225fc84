//! The unit itself, through its C boundary: the names, the order of parameters and the meaning of swathecold.h.

use crate::plain::{Cut, Lanes, Lent, Replacement, Verdict};
use crate::unit::{Directions, Picture, Unit};

/// A slice is a pointer and then its length in elements; an array is a pointer to that many elements.
#[rustfmt::skip]
mod c {
    extern "C" {
        pub fn swathecold_level_sizes(kind: u32, width: u32, height: u32, level: u32, sizes: *mut u64) -> u32;
        pub fn swathecold_generate_mipmaps(kind: u32, width: u32, height: u32, mode: u32, texels: *mut u32,
                                           texels_len: usize, written: *mut u64) -> u32;
        pub fn swathecold_check_chain(kind: u32, width: u32, height: u32, mode: u32, texels: *const u32,
                                      texels_len: usize, verdict: *mut u64) -> u32;
        pub fn swathecold_check_level(kind: u32, width: u32, height: u32, mode: u32, texels: *const u32,
                                      texels_len: usize, level: u32, verdict: *mut u64) -> u32;
        pub fn swathecold_cut_cross(width: u32, height: u32, bytes: *const u8, bytes_len: usize, faces: *mut u32,
                                    faces_len: usize, written: *mut u64) -> u32;
        pub fn swathecold_cut(kind: u32, width: u32, height: u32, source: *const u32, source_len: usize,
                              order: u32, corner_x: u32, corner_y: u32, cut_width: u32, cut_height: u32,
                              target: *mut u32, target_len: usize, written: *mut u64) -> u32;
        pub fn swathecold_level_view(kind: u32, width: u32, height: u32, texels: *const u32, texels_len: usize,
                                     level: u32, face: u32, part: *mut u64) -> u32;
        pub fn swathecold_compute_mip_level(width: u32, height: u32, steps: *const f32, level: *mut u32) -> u32;
        pub fn swathecold_sample4_rgb(kind: u32, width: u32, height: u32, texels: *const u32, texels_len: usize,
                                      wrap_s: u32, wrap_t: u32, u: *const f32, v: *const f32, steps: *const f32,
                                      rgb: *mut f32) -> u32;
        pub fn swathecold_sample4_alpha(kind: u32, width: u32, height: u32, texels: *const u32, texels_len: usize,
                                        wrap_s: u32, wrap_t: u32, u: *const f32, v: *const f32, steps: *const f32,
                                        alpha: *mut f32) -> u32;
        pub fn swathecold_sample_bilinear_rgb(kind: u32, width: u32, height: u32, texels: *const u32,
                                              texels_len: usize, wrap_s: u32, wrap_t: u32, u: *const f32,
                                              v: *const f32, level: u32, faces: *const u32, rgb: *mut f32) -> u32;
        pub fn swathecold_sample_bilinear_alpha(kind: u32, width: u32, height: u32, texels: *const u32,
                                                texels_len: usize, wrap_s: u32, wrap_t: u32, u: *const f32,
                                                v: *const f32, level: u32, alpha: *mut f32) -> u32;
        pub fn swathecold_cubemap_uv_from_normal(x: *const f32, y: *const f32, z: *const f32, uv: *mut f32,
                                                 faces: *mut u32) -> u32;
        pub fn swathecold_sample_cubemap_rgb(kind: u32, width: u32, height: u32, texels: *const u32,
                                             texels_len: usize, x: *const f32, y: *const f32, z: *const f32,
                                             levels: *const u32, rgb: *mut f32) -> u32;
        pub fn swathecold_sample_cubemap_trilinear_rgb(kind: u32, width: u32, height: u32, texels: *const u32,
                                                       texels_len: usize, x: *const f32, y: *const f32,
                                                       z: *const f32, levels: *const f32, rgb: *mut f32) -> u32;
        pub fn swathecold_build_ranges(kind: u32, width: u32, height: u32, texels: *const u32, texels_len: usize,
                                       ranges: *mut u8, ranges_len: usize, written: *mut u64) -> u32;
        pub fn swathecold_replace_texel(kind: u32, width: u32, height: u32, texels: *mut u32, texels_len: usize,
                                        ranges: *mut u8, ranges_len: usize, x: u32, y: u32, texel: u32) -> u32;
        pub fn swathecold_irradiance_sh4(kind: u32, width: u32, height: u32, texels: *const u32, texels_len: usize,
                                         sh: *mut f32) -> u32;
    }
}

/// The unit that was linked.
pub struct Boundary;

// In each call: every pointer comes from a slice or an array of the length that goes with it.
#[rustfmt::skip]
impl Unit for Boundary {
    fn level_sizes(&self, kind: u32, width: u32, height: u32, level: u32, sizes: &mut [u64; 4]) -> u32 {
        unsafe { c::swathecold_level_sizes(kind, width, height, level, sizes.as_mut_ptr()) }
    }

    fn generate_mipmaps(&self, kind: u32, width: u32, height: u32, mode: u32, texels: &mut [u32],
                        written: &mut u64) -> u32 {
        unsafe { c::swathecold_generate_mipmaps(kind, width, height, mode, texels.as_mut_ptr(), texels.len(), written) }
    }

    fn cut_cross(&self, width: u32, height: u32, bytes: &[u8], faces: &mut [u32], written: &mut u64) -> u32 {
        unsafe {
            c::swathecold_cut_cross(width, height, bytes.as_ptr(), bytes.len(), faces.as_mut_ptr(), faces.len(),
                                    written)
        }
    }

    fn cut(&self, source: &Lent, cut: &Cut, target: &mut [u32], written: &mut u64) -> u32 {
        unsafe {
            c::swathecold_cut(source.kind, source.width, source.height, source.texels.as_ptr(), source.texels.len(),
                              cut.order, cut.corner_x, cut.corner_y, cut.width, cut.height,
                              target.as_mut_ptr(), target.len(), written)
        }
    }

    fn level_view(&self, p: &Lent, level: u32, face: u32, part: &mut [u64; 2]) -> u32 {
        unsafe {
            c::swathecold_level_view(p.kind, p.width, p.height, p.texels.as_ptr(), p.texels.len(), level, face,
                                     part.as_mut_ptr())
        }
    }

    fn compute_mip_level(&self, width: u32, height: u32, steps: &Lanes, level: &mut u32) -> u32 {
        unsafe { c::swathecold_compute_mip_level(width, height, steps.as_ptr(), level) }
    }

    fn sample4_rgb(&self, picture: &Picture, codes: [u32; 2], u: &Lanes, v: &Lanes, steps: &Lanes,
                   rgb: &mut [f32; 12]) -> u32 {
        let p = &picture.lent;
        unsafe {
            c::swathecold_sample4_rgb(p.kind, p.width, p.height, p.texels.as_ptr(), p.texels.len(), codes[0], codes[1],
                                      u.as_ptr(), v.as_ptr(), steps.as_ptr(), rgb.as_mut_ptr())
        }
    }

    fn sample4_alpha(&self, picture: &Picture, codes: [u32; 2], u: &Lanes, v: &Lanes, steps: &Lanes,
                     alpha: &mut Lanes) -> u32 {
        let p = &picture.lent;
        unsafe {
            c::swathecold_sample4_alpha(p.kind, p.width, p.height, p.texels.as_ptr(), p.texels.len(), codes[0],
                                        codes[1], u.as_ptr(), v.as_ptr(), steps.as_ptr(), alpha.as_mut_ptr())
        }
    }

    fn sample_bilinear_rgb(&self, picture: &Picture, codes: [u32; 2], u: &Lanes, v: &Lanes, level: u32,
                           faces: &[u32; 4], rgb: &mut [f32; 12]) -> u32 {
        let p = &picture.lent;
        unsafe {
            c::swathecold_sample_bilinear_rgb(p.kind, p.width, p.height, p.texels.as_ptr(), p.texels.len(), codes[0],
                                              codes[1], u.as_ptr(), v.as_ptr(), level, faces.as_ptr(),
                                              rgb.as_mut_ptr())
        }
    }

    fn sample_bilinear_alpha(&self, picture: &Picture, codes: [u32; 2], u: &Lanes, v: &Lanes, level: u32,
                             alpha: &mut Lanes) -> u32 {
        let p = &picture.lent;
        unsafe {
            c::swathecold_sample_bilinear_alpha(p.kind, p.width, p.height, p.texels.as_ptr(), p.texels.len(),
                                                codes[0], codes[1], u.as_ptr(), v.as_ptr(), level,
                                                alpha.as_mut_ptr())
        }
    }

    fn cubemap_uv_from_normal(&self, d: &Directions, uv: &mut [f32; 8], faces: &mut [u32; 4]) -> u32 {
        unsafe {
            c::swathecold_cubemap_uv_from_normal(d.x.as_ptr(), d.y.as_ptr(), d.z.as_ptr(), uv.as_mut_ptr(),
                                                 faces.as_mut_ptr())
        }
    }

    fn sample_cubemap_rgb(&self, picture: &Picture, d: &Directions, levels: &[u32; 4], rgb: &mut [f32; 12]) -> u32 {
        let p = &picture.lent;
        unsafe {
            c::swathecold_sample_cubemap_rgb(p.kind, p.width, p.height, p.texels.as_ptr(), p.texels.len(),
                                             d.x.as_ptr(), d.y.as_ptr(), d.z.as_ptr(), levels.as_ptr(),
                                             rgb.as_mut_ptr())
        }
    }

    fn sample_cubemap_trilinear_rgb(&self, picture: &Picture, d: &Directions, levels: &Lanes,
                                    rgb: &mut [f32; 12]) -> u32 {
        let p = &picture.lent;
        unsafe {
            c::swathecold_sample_cubemap_trilinear_rgb(p.kind, p.width, p.height, p.texels.as_ptr(), p.texels.len(),
                                                       d.x.as_ptr(), d.y.as_ptr(), d.z.as_ptr(), levels.as_ptr(),
                                                       rgb.as_mut_ptr())
        }
    }

    fn build_ranges(&self, p: &Lent, ranges: &mut [u8], written: &mut u64) -> u32 {
        unsafe {
            c::swathecold_build_ranges(p.kind, p.width, p.height, p.texels.as_ptr(), p.texels.len(),
                                       ranges.as_mut_ptr(), ranges.len(), written)
        }
    }

    fn replace_texel(&self, kind: u32, width: u32, height: u32, texels: &mut [u32], ranges: &mut [u8],
                     replacement: &Replacement) -> u32 {
        let &Replacement { x, y, texel } = replacement;
        unsafe {
            c::swathecold_replace_texel(kind, width, height, texels.as_mut_ptr(), texels.len(), ranges.as_mut_ptr(),
                                        ranges.len(), x, y, texel)
        }
    }

    fn irradiance_sh4(&self, p: &Lent, sh: &mut [f32; 12]) -> u32 {
        unsafe {
            c::swathecold_irradiance_sh4(p.kind, p.width, p.height, p.texels.as_ptr(), p.texels.len(), sh.as_mut_ptr())
        }
    }

    fn check_chain(&self, p: &Lent, mode: u32, verdict: &mut Verdict) -> u32 {
        unsafe {
            c::swathecold_check_chain(p.kind, p.width, p.height, mode, p.texels.as_ptr(), p.texels.len(),
                                      verdict.as_mut_ptr())
        }
    }

    fn check_level(&self, p: &Lent, mode: u32, level: u32, verdict: &mut Verdict) -> u32 {
        unsafe {
            c::swathecold_check_level(p.kind, p.width, p.height, mode, p.texels.as_ptr(), p.texels.len(), level,
                                      verdict.as_mut_ptr())
        }
    }
}
