//! The C boundary as include/swathecold.h declares it. A slice is a pointer and a length; an array a pointer.

extern "C" {
    pub fn swathecold_level_sizes(kind: u32, width: u32, height: u32, level: u32, sizes: *mut u64) -> u32;
    pub fn swathecold_generate_mipmaps(
        kind: u32,
        width: u32,
        height: u32,
        mode: u32,
        texels: *mut u32,
        len: usize,
        written: *mut u64,
    ) -> u32;
    pub fn swathecold_check_chain(
        kind: u32,
        width: u32,
        height: u32,
        mode: u32,
        texels: *const u32,
        len: usize,
        verdict: *mut u64,
    ) -> u32;
    pub fn swathecold_check_level(
        kind: u32,
        width: u32,
        height: u32,
        mode: u32,
        texels: *const u32,
        len: usize,
        level: u32,
        verdict: *mut u64,
    ) -> u32;
    pub fn swathecold_cut_cross(
        width: u32,
        height: u32,
        bytes: *const u8,
        bytes_len: usize,
        faces: *mut u32,
        faces_len: usize,
        written: *mut u64,
    ) -> u32;
    pub fn swathecold_cut(
        kind: u32,
        width: u32,
        height: u32,
        source: *const u32,
        source_len: usize,
        order: u32,
        corner_x: u32,
        corner_y: u32,
        cut_width: u32,
        cut_height: u32,
        target: *mut u32,
        target_len: usize,
        written: *mut u64,
    ) -> u32;
    pub fn swathecold_level_view(
        kind: u32,
        width: u32,
        height: u32,
        texels: *const u32,
        len: usize,
        level: u32,
        face: u32,
        part: *mut u64,
    ) -> u32;
    pub fn swathecold_compute_mip_level(width: u32, height: u32, steps: *const f32, level: *mut u32) -> u32;
    pub fn swathecold_sample4_rgb(
        kind: u32,
        width: u32,
        height: u32,
        texels: *const u32,
        len: usize,
        wrap_s: u32,
        wrap_t: u32,
        u: *const f32,
        v: *const f32,
        steps: *const f32,
        rgb: *mut f32,
    ) -> u32;
    pub fn swathecold_sample4_alpha(
        kind: u32,
        width: u32,
        height: u32,
        texels: *const u32,
        len: usize,
        wrap_s: u32,
        wrap_t: u32,
        u: *const f32,
        v: *const f32,
        steps: *const f32,
        alpha: *mut f32,
    ) -> u32;
    pub fn swathecold_sample_bilinear_rgb(
        kind: u32,
        width: u32,
        height: u32,
        texels: *const u32,
        len: usize,
        wrap_s: u32,
        wrap_t: u32,
        u: *const f32,
        v: *const f32,
        level: u32,
        faces: *const u32,
        rgb: *mut f32,
    ) -> u32;
    pub fn swathecold_sample_bilinear_alpha(
        kind: u32,
        width: u32,
        height: u32,
        texels: *const u32,
        len: usize,
        wrap_s: u32,
        wrap_t: u32,
        u: *const f32,
        v: *const f32,
        level: u32,
        alpha: *mut f32,
    ) -> u32;
    pub fn swathecold_cubemap_uv_from_normal(x: *const f32, y: *const f32, z: *const f32, uv: *mut f32, faces: *mut u32) -> u32;
    pub fn swathecold_sample_cubemap_rgb(
        kind: u32,
        width: u32,
        height: u32,
        texels: *const u32,
        len: usize,
        x: *const f32,
        y: *const f32,
        z: *const f32,
        levels: *const u32,
        rgb: *mut f32,
    ) -> u32;
    pub fn swathecold_sample_cubemap_trilinear_rgb(
        kind: u32,
        width: u32,
        height: u32,
        texels: *const u32,
        len: usize,
        x: *const f32,
        y: *const f32,
        z: *const f32,
        levels: *const f32,
        rgb: *mut f32,
    ) -> u32;
    pub fn swathecold_build_ranges(
        kind: u32,
        width: u32,
        height: u32,
        texels: *const u32,
        texels_len: usize,
        ranges: *mut u8,
        ranges_len: usize,
        written: *mut u64,
    ) -> u32;
    pub fn swathecold_replace_texel(
        kind: u32,
        width: u32,
        height: u32,
        texels: *mut u32,
        texels_len: usize,
        ranges: *mut u8,
        ranges_len: usize,
        x: u32,
        y: u32,
        texel: u32,
    ) -> u32;
    pub fn swathecold_irradiance_sh4(kind: u32, width: u32, height: u32, texels: *const u32, len: usize, sh: *mut f32) -> u32;
}
