//! The source's own text as a unit. It has no refusals, no cut, no ranges and no check: it is asked only what document 01 accepts.
//! It truncates, so a chain in nearest mode is not asked of it. Its coefficients are by other rules than document 02's, and are
//! no part of the comparison.

use crate::call::Call;
use crate::plain::{Cut, Lanes, Lent, Replacement, Verdict, CUBEMAP, TRUNCATING};
use crate::unit::{Directions, Picture, Unit};
use glam::{UVec4, Vec4};
use std::cell::RefCell;
use std::sync::Arc;
use swraster::math::Vec3x4;
use swraster::texture::{
    compute_irradiance_sh4, Filter, Sampler, Texture, TextureAndSampler, TextureCache, TextureType, WrapMode,
};

/// Sizes are taken from a chain that the source makes; of larger pictures than this it makes none for that.
const LARGEST_FOR_SIZES: u64 = 1 << 20;

/// The source, with the textures that it was last asked about: for sizes, for lookups, and without texels for levels.
#[derive(Default)]
pub struct Source {
    sized: RefCell<Option<([u32; 3], Arc<Texture>)>>,
    lent: RefCell<Option<(u64, Arc<Texture>)>>,
    bare: RefCell<Option<([u32; 2], TextureAndSampler)>>,
}

/// The source's kind of a kind code.
fn texture_type(kind: u32) -> TextureType {
    match kind {
        0 => TextureType::SRGB,
        1 => TextureType::Normal,
        2 => TextureType::MetallicRoughness,
        3 => TextureType::Cubemap,
        _ => TextureType::Linear,
    }
}

/// The source's wrap mode of an accepted code; 0 = not given, Repeat.
fn wrap_mode(code: u32) -> WrapMode {
    match code {
        10497 | 0 => WrapMode::Repeat,
        33648 => WrapMode::MirroredRepeat,
        _ => WrapMode::ClampToEdge,
    }
}

/// A texture with level 0 only, as the source's loader leaves it before it calls `generate_mipmaps`.
pub fn texture(kind: u32, width: u32, height: u32, level_0: Vec<u32>) -> Texture {
    let (width_f, height_f) = (width as f32, height as f32);
    Texture {
        width,
        height,
        width_height_vec: Vec4::new(width_f, width_f, height_f, height_f),
        texture_type: texture_type(kind),
        data: level_0,
        max_mip_level: 0,
        max_mip_level_vec: Vec4::ZERO,
        mip_offsets: vec![0],
        mip_widths: vec![width],
        mip_heights: vec![height],
        mip_widths_f: vec![width_f],
        mip_heights_f: vec![height_f],
        array_stride: vec![if kind == CUBEMAP { width * height } else { 0 }],
    }
}

/// A texture with the wrap codes of a call.
pub fn with_codes(texture: Arc<Texture>, codes: [u32; 2]) -> TextureAndSampler {
    TextureAndSampler {
        texture,
        sampler: Sampler {
            wrap_s: wrap_mode(codes[0]),
            wrap_t: wrap_mode(codes[1]),
            _min_filter: Filter::Nearest,
            _mag_filter: Filter::Nearest,
        },
    }
}

/// A texture over a lent chain: the source's own layout, the lent texels in it.
pub fn over_chain(lent: &Lent) -> Texture {
    let faces = if lent.kind == CUBEMAP { 6 } else { 1 };
    let level_0 = lent.width as usize * lent.height as usize * faces;
    let mut made = texture(lent.kind, lent.width, lent.height, vec![0; level_0]);
    made.generate_mipmaps();
    let texels = made.data.len();
    made.data.copy_from_slice(&lent.texels[..texels]);
    made
}

/// Four lanes as the source's vector.
pub fn vec4(lanes: &Lanes) -> Vec4 {
    Vec4::new(lanes[0], lanes[1], lanes[2], lanes[3])
}

/// Four numbers as the source's vector.
pub fn uvec4(lanes: &[u32; 4]) -> UVec4 {
    UVec4::new(lanes[0], lanes[1], lanes[2], lanes[3])
}

/// Directions as the source's vector.
pub fn vec3x4(d: &Directions) -> Vec3x4 {
    Vec3x4::new(vec4(&d.x), vec4(&d.y), vec4(&d.z))
}

/// The source's vector as four lanes.
fn lanes(v: Vec4) -> Lanes {
    [v.x, v.y, v.z, v.w]
}

/// The source's colours as four reds, four greens, four blues.
fn colours(rgb: Vec3x4) -> [f32; 12] {
    let parts = [lanes(rgb.x), lanes(rgb.y), lanes(rgb.z)];
    std::array::from_fn(|i| parts[i / 4][i % 4])
}

impl Source {
    /// The texture whose sizes are asked for, made by the source from a black picture.
    fn sized(&self, kind: u32, width: u32, height: u32) -> Arc<Texture> {
        let key = [kind, width, height];
        let mut kept = self.sized.borrow_mut();
        if kept.as_ref().is_none_or(|(of, _)| *of != key) {
            let faces = if kind == CUBEMAP { 6 } else { 1 };
            let mut made = texture(kind, width, height, vec![0; width as usize * height as usize * faces]);
            made.generate_mipmaps();
            *kept = Some((key, Arc::new(made)));
        }
        kept.as_ref().unwrap().1.clone()
    }

    /// The texture over a lent chain, with the codes of a call.
    fn over(&self, picture: &Picture, codes: [u32; 2]) -> TextureAndSampler {
        let mut kept = self.lent.borrow_mut();
        if kept.as_ref().is_none_or(|(number, _)| *number != picture.number) {
            *kept = Some((picture.number, Arc::new(over_chain(&picture.lent))));
        }
        with_codes(kept.as_ref().unwrap().1.clone(), codes)
    }
}

#[rustfmt::skip]
impl Unit for Source {
    fn has(&self, call: &Call) -> bool {
        match call {
            Call::Cut { .. } | Call::BuildRanges { .. } | Call::ReplaceTexel { .. } | Call::IrradianceSh4 { .. }
            | Call::CheckChain { .. } | Call::CheckLevel { .. } => false,
            Call::GenerateMipmaps { mode, .. } => *mode == TRUNCATING,
            Call::LevelSizes { width, height, .. } => *width as u64 * *height as u64 <= LARGEST_FOR_SIZES,
            Call::LevelView { picture, .. } => picture.width as u64 * picture.height as u64 <= LARGEST_FOR_SIZES,
            _ => true,
        }
    }

    fn level_sizes(&self, kind: u32, width: u32, height: u32, level: u32, sizes: &mut [u64; 4]) -> u32 {
        let t = self.sized(kind, width, height);
        let m = level as usize;
        *sizes = [t.mip_offsets[m] as u64, t.mip_widths[m] as u64, t.mip_heights[m] as u64, t.data.len() as u64];
        0
    }

    fn generate_mipmaps(&self, kind: u32, width: u32, height: u32, mode: u32, texels: &mut [u32],
                        written: &mut u64) -> u32 {
        assert_eq!(mode, TRUNCATING, "the source has no other mode");
        let faces = if kind == CUBEMAP { 6 } else { 1 };
        let level_0 = texels[..width as usize * height as usize * faces].to_vec();
        let mut made = texture(kind, width, height, level_0);
        made.generate_mipmaps();
        texels[..made.data.len()].copy_from_slice(&made.data);
        *written = made.data.len() as u64;
        0
    }

    /// The cross goes through the source's loader, over a picture lent in the place of a file.
    fn cut_cross(&self, width: u32, height: u32, bytes: &[u8], faces: &mut [u32], written: &mut u64) -> u32 {
        image::lend("lent/cross", width, height, bytes[..width as usize * height as usize * 4].to_vec());
        let made = TextureCache::new("lent".to_string()).get_or_create("cross", TextureType::Cubemap);
        let texels = made.width as usize * made.height as usize * 6;
        faces[..texels].copy_from_slice(&made.data[..texels]);
        *written = texels as u64;
        0
    }

    fn cut(&self, _source: &Lent, _cut: &Cut, _target: &mut [u32], _written: &mut u64) -> u32 {
        unreachable!("the source has no cut")
    }

    fn level_view(&self, p: &Lent, level: u32, face: u32, part: &mut [u64; 2]) -> u32 {
        let t = self.sized(p.kind, p.width, p.height);
        let m = level as usize;
        let start = t.mip_offsets[m] + face * t.array_stride[m];
        *part = [start as u64, t.mip_widths[m] as u64 * t.mip_heights[m] as u64];
        0
    }

    fn compute_mip_level(&self, width: u32, height: u32, steps: &Lanes, level: &mut u32) -> u32 {
        let mut kept = self.bare.borrow_mut();
        if kept.as_ref().is_none_or(|(of, _)| *of != [width, height]) {
            let mut made = texture(4, width, height, Vec::new());
            made.max_mip_level = width.max(height).ilog2();
            *kept = Some(([width, height], with_codes(Arc::new(made), [0, 0])));
        }
        *level = kept.as_ref().unwrap().1.compute_mip_level(vec4(steps));
        0
    }

    fn sample4_rgb(&self, picture: &Picture, codes: [u32; 2], u: &Lanes, v: &Lanes, steps: &Lanes,
                   rgb: &mut [f32; 12]) -> u32 {
        *rgb = colours(self.over(picture, codes).sample4_rgb(vec4(u), vec4(v), vec4(steps)));
        0
    }

    fn sample4_alpha(&self, picture: &Picture, codes: [u32; 2], u: &Lanes, v: &Lanes, steps: &Lanes,
                     alpha: &mut Lanes) -> u32 {
        *alpha = lanes(self.over(picture, codes).sample4_alpha(vec4(u), vec4(v), vec4(steps)));
        0
    }

    fn sample_bilinear_rgb(&self, picture: &Picture, codes: [u32; 2], u: &Lanes, v: &Lanes, level: u32,
                           faces: &[u32; 4], rgb: &mut [f32; 12]) -> u32 {
        *rgb = colours(self.over(picture, codes).sample_bilinear_rgb(vec4(u), vec4(v), level, uvec4(faces)));
        0
    }

    fn sample_bilinear_alpha(&self, picture: &Picture, codes: [u32; 2], u: &Lanes, v: &Lanes, level: u32,
                             alpha: &mut Lanes) -> u32 {
        *alpha = lanes(self.over(picture, codes).sample_bilinear_alpha(vec4(u), vec4(v), level));
        0
    }

    fn cubemap_uv_from_normal(&self, d: &Directions, uv: &mut [f32; 8], faces: &mut [u32; 4]) -> u32 {
        let (u, v, slice) = TextureAndSampler::cubemap_uv_from_normal(vec3x4(d));
        uv[..4].copy_from_slice(&lanes(u));
        uv[4..].copy_from_slice(&lanes(v));
        *faces = [slice.x, slice.y, slice.z, slice.w];
        0
    }

    fn sample_cubemap_rgb(&self, picture: &Picture, d: &Directions, levels: &[u32; 4], rgb: &mut [f32; 12]) -> u32 {
        *rgb = colours(self.over(picture, [0, 0]).sample_cubemap_rgb(vec3x4(d), uvec4(levels)));
        0
    }

    fn sample_cubemap_trilinear_rgb(&self, picture: &Picture, d: &Directions, levels: &Lanes,
                                    rgb: &mut [f32; 12]) -> u32 {
        *rgb = colours(self.over(picture, [0, 0]).sample_cubemap_trilinear_rgb(vec3x4(d), vec4(levels)));
        0
    }

    fn build_ranges(&self, _picture: &Lent, _ranges: &mut [u8], _written: &mut u64) -> u32 {
        unreachable!("the source has no ranges")
    }

    fn replace_texel(&self, _kind: u32, _width: u32, _height: u32, _texels: &mut [u32], _ranges: &mut [u8],
                     _replacement: &Replacement) -> u32 {
        unreachable!("the source has no ranges")
    }

    /// With the sampler that the station gives its cubemap.
    fn irradiance_sh4(&self, p: &Lent, sh: &mut [f32; 12]) -> u32 {
        let level_0 = p.texels[..p.width as usize * p.height as usize * 6].to_vec();
        let made = Arc::new(texture(p.kind, p.width, p.height, level_0));
        let coefficients = compute_irradiance_sh4(&with_codes(made, [33071, 33071]));
        *sh = std::array::from_fn(|i| {
            let c = coefficients[i / 3];
            [c.x, c.y, c.z][i % 3]
        });
        0
    }

    fn check_chain(&self, _picture: &Lent, _mode: u32, _verdict: &mut Verdict) -> u32 {
        unreachable!("the source has no check")
    }

    fn check_level(&self, _picture: &Lent, _mode: u32, _level: u32, _verdict: &mut Verdict) -> u32 {
        unreachable!("the source has no check")
    }
}
