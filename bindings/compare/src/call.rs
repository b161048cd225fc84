//! One call with all its arguments, and what it answered and left behind.

use crate::plain::{Cut, Lanes, Lent, Replacement};
use crate::unit::{Directions, Picture, Unit};
use std::panic::{catch_unwind, AssertUnwindSafe};

/// The names of the calls by their numbers: in the order of swathecold.h, but for the two checks, which came last.
pub const NAMES: [&str; 18] = [
    "level_sizes",
    "generate_mipmaps",
    "cut_cross",
    "cut",
    "level_view",
    "compute_mip_level",
    "sample4_rgb",
    "sample4_alpha",
    "sample_bilinear_rgb",
    "sample_bilinear_alpha",
    "cubemap_uv_from_normal",
    "sample_cubemap_rgb",
    "sample_cubemap_trilinear_rgb",
    "build_ranges",
    "replace_texel",
    "irradiance_sh4",
    "check_chain",
    "check_level",
];

/// A call of swathecold.h. A buffer that is written is given as it is before the call.
#[derive(Clone, Copy)]
#[rustfmt::skip]
pub enum Call<'a> {
    LevelSizes { kind: u32, width: u32, height: u32, level: u32 },
    GenerateMipmaps { kind: u32, width: u32, height: u32, mode: u32, texels: &'a [u32] },
    CutCross { width: u32, height: u32, bytes: &'a [u8], faces: &'a [u32] },
    Cut { source: Lent<'a>, cut: Cut, target: &'a [u32] },
    LevelView { picture: Lent<'a>, level: u32, face: u32 },
    ComputeMipLevel { width: u32, height: u32, steps: Lanes },
    Sample4Rgb { picture: Picture<'a>, codes: [u32; 2], u: Lanes, v: Lanes, steps: Lanes },
    Sample4Alpha { picture: Picture<'a>, codes: [u32; 2], u: Lanes, v: Lanes, steps: Lanes },
    SampleBilinearRgb { picture: Picture<'a>, codes: [u32; 2], u: Lanes, v: Lanes, level: u32, faces: [u32; 4] },
    SampleBilinearAlpha { picture: Picture<'a>, codes: [u32; 2], u: Lanes, v: Lanes, level: u32 },
    CubemapUvFromNormal { directions: Directions },
    SampleCubemapRgb { picture: Picture<'a>, directions: Directions, levels: [u32; 4] },
    SampleCubemapTrilinearRgb { picture: Picture<'a>, directions: Directions, levels: Lanes },
    BuildRanges { picture: Lent<'a>, ranges: &'a [u8] },
    ReplaceTexel { picture: Lent<'a>, ranges: &'a [u8], replacement: Replacement },
    IrradianceSh4 { picture: Lent<'a> },
    CheckChain { picture: Lent<'a>, mode: u32 },
    CheckLevel { picture: Lent<'a>, mode: u32, level: u32 },
}

impl<'a> Call<'a> {
    /// Its number in `NAMES`.
    pub fn number(&self) -> usize {
        match self {
            Call::LevelSizes { .. } => 0,
            Call::GenerateMipmaps { .. } => 1,
            Call::CutCross { .. } => 2,
            Call::Cut { .. } => 3,
            Call::LevelView { .. } => 4,
            Call::ComputeMipLevel { .. } => 5,
            Call::Sample4Rgb { .. } => 6,
            Call::Sample4Alpha { .. } => 7,
            Call::SampleBilinearRgb { .. } => 8,
            Call::SampleBilinearAlpha { .. } => 9,
            Call::CubemapUvFromNormal { .. } => 10,
            Call::SampleCubemapRgb { .. } => 11,
            Call::SampleCubemapTrilinearRgb { .. } => 12,
            Call::BuildRanges { .. } => 13,
            Call::ReplaceTexel { .. } => 14,
            Call::IrradianceSh4 { .. } => 15,
            Call::CheckChain { .. } => 16,
            Call::CheckLevel { .. } => 17,
        }
    }

    /// Its name.
    pub fn name(&self) -> &'static str {
        NAMES[self.number()]
    }

    /// The kind it is given, where it takes one.
    pub fn kind(&self) -> Option<u32> {
        match self {
            Call::LevelSizes { kind, .. } | Call::GenerateMipmaps { kind, .. } => Some(*kind),
            Call::Cut { source, .. } => Some(source.kind),
            Call::LevelView { picture, .. }
            | Call::BuildRanges { picture, .. }
            | Call::ReplaceTexel { picture, .. }
            | Call::IrradianceSh4 { picture }
            | Call::CheckChain { picture, .. }
            | Call::CheckLevel { picture, .. } => Some(picture.kind),
            Call::CutCross { .. } | Call::ComputeMipLevel { .. } | Call::CubemapUvFromNormal { .. } => None,
            _ => self.picture().map(|picture| picture.lent.kind),
        }
    }

    /// The picture that a lookup is lent.
    pub fn picture(&self) -> Option<&Picture<'a>> {
        match self {
            Call::Sample4Rgb { picture, .. }
            | Call::Sample4Alpha { picture, .. }
            | Call::SampleBilinearRgb { picture, .. }
            | Call::SampleBilinearAlpha { picture, .. }
            | Call::SampleCubemapRgb { picture, .. }
            | Call::SampleCubemapTrilinearRgb { picture, .. } => Some(picture),
            _ => None,
        }
    }

    /// The texels that it may write, as they are before the call; of document 02's calls also those that it only reads.
    pub fn before(&self) -> &'a [u32] {
        match self {
            Call::GenerateMipmaps { texels, .. } => texels,
            Call::CutCross { faces, .. } => faces,
            Call::Cut { target, .. } => target,
            Call::BuildRanges { picture, .. }
            | Call::ReplaceTexel { picture, .. }
            | Call::IrradianceSh4 { picture }
            | Call::CheckChain { picture, .. }
            | Call::CheckLevel { picture, .. } => picture.texels,
            _ => &[],
        }
    }

    /// The ranges that it may write, as they are before the call.
    pub fn ranges_before(&self) -> &'a [u8] {
        match self {
            Call::BuildRanges { ranges, .. } | Call::ReplaceTexel { ranges, .. } => ranges,
            _ => &[],
        }
    }

    /// The sides that it is given; a direction has none.
    pub fn sides(&self) -> (u32, u32) {
        match self {
            Call::LevelSizes { width, height, .. }
            | Call::GenerateMipmaps { width, height, .. }
            | Call::CutCross { width, height, .. }
            | Call::ComputeMipLevel { width, height, .. } => (*width, *height),
            Call::Cut { source, .. } => (source.width, source.height),
            Call::LevelView { picture, .. }
            | Call::BuildRanges { picture, .. }
            | Call::ReplaceTexel { picture, .. }
            | Call::IrradianceSh4 { picture }
            | Call::CheckChain { picture, .. }
            | Call::CheckLevel { picture, .. } => (picture.width, picture.height),
            _ => self
                .picture()
                .map_or((0, 0), |picture| (picture.lent.width, picture.lent.height)),
        }
    }
}

/// The numbers that a call can answer: 0, or a refusal. 9 is retired and never used again, 12 is the listing program's.
pub const NUMBERS: [u32; 13] = [0, 1, 2, 3, 4, 5, 6, 7, 8, 10, 11, 14, 15];

/// What stands where nothing was written.
pub const UNTOUCHED: u32 = 0xC5C5_5C5C;

/// What one that panicked answered.
pub const PANICKED: u32 = u32::MAX;

/// Texels or bytes lent to nobody behind each lent buffer.
const BEHIND: usize = 16;

/// What a call answered and left: the refusal number, its out parameters with what stands behind them, and the texels
/// and ranges that it was lent with what stands behind each.
#[derive(Clone, PartialEq, Debug)]
pub struct Outcome {
    pub refusal: u32,
    pub words: [u32; 16],
    pub buffer: Vec<u32>,
    pub ranges: Vec<u8>,
}

impl Outcome {
    /// Nothing yet.
    pub fn new() -> Outcome {
        Outcome {
            refusal: 0,
            words: [UNTOUCHED; 16],
            buffer: Vec::new(),
            ranges: Vec::new(),
        }
    }
}

impl Default for Outcome {
    fn default() -> Self {
        Outcome::new()
    }
}

/// Puts eight bytes each as two words.
fn put_wide(words: &mut [u32; 16], wide: &[u64]) {
    for (i, value) in wide.iter().enumerate() {
        words[2 * i] = *value as u32;
        words[2 * i + 1] = (*value >> 32) as u32;
    }
}

/// A call's answer in wide numbers: N of them, and one behind them that is lent to nobody.
fn wide<const N: usize>(words: &mut [u32; 16], call: impl FnOnce(&mut [u64; N]) -> u32) -> u32 {
    let mut out = [(UNTOUCHED as u64) << 32 | UNTOUCHED as u64; 8];
    let refusal = call(out.first_chunk_mut().unwrap());
    put_wide(words, &out);
    refusal
}

/// A call's answer in floats: N of them, and some behind them that are lent to nobody.
fn floats<const N: usize>(words: &mut [u32; 16], call: impl FnOnce(&mut [f32; N]) -> u32) -> u32 {
    let mut out = [f32::from_bits(UNTOUCHED); 16];
    let refusal = call(out.first_chunk_mut().unwrap());
    *words = out.map(f32::to_bits);
    refusal
}

/// Fills a buffer with what is lent, and puts more behind it that is lent to nobody.
fn lend<'a, T: Copy>(buffer: &'a mut Vec<T>, before: &[T], behind: T) -> &'a mut [T] {
    buffer.clear();
    buffer.extend_from_slice(before);
    buffer.resize(before.len() + BEHIND, behind);
    &mut buffer[..before.len()]
}

/// A picture over a copy of its texels.
fn over<'a>(texels: &'a [u32], picture: &Lent) -> Lent<'a> {
    Lent { texels, ..*picture }
}

/// Asks a unit one call. The outcome's buffers are used again, so that many calls take no new memory. A panic is an
/// answer too, so that one that reads outside its texels is seen as any other that is wrong.
pub fn ask(unit: &dyn Unit, call: &Call, outcome: &mut Outcome) {
    let lent = lend(&mut outcome.buffer, call.before(), UNTOUCHED);
    let ranges = lend(&mut outcome.ranges, call.ranges_before(), UNTOUCHED as u8);
    let words = &mut outcome.words;
    *words = [UNTOUCHED; 16];
    let answered = AssertUnwindSafe(|| match call {
        Call::LevelSizes {
            kind,
            width,
            height,
            level,
        } => wide(words, |sizes| unit.level_sizes(*kind, *width, *height, *level, sizes)),
        Call::GenerateMipmaps { kind, mode, .. } => wide::<1>(words, |written| {
            let (width, height) = call.sides();
            unit.generate_mipmaps(*kind, width, height, *mode, lent, &mut written[0])
        }),
        Call::CutCross {
            width, height, bytes, ..
        } => wide::<1>(words, |written| {
            unit.cut_cross(*width, *height, bytes, lent, &mut written[0])
        }),
        Call::Cut { source, cut, .. } => wide::<1>(words, |written| unit.cut(source, cut, lent, &mut written[0])),
        Call::LevelView { picture, level, face } => wide(words, |part| unit.level_view(picture, *level, *face, part)),
        Call::ComputeMipLevel { width, height, steps } => unit.compute_mip_level(*width, *height, steps, &mut words[0]),
        Call::BuildRanges { picture, .. } => wide::<1>(words, |written| {
            unit.build_ranges(&over(lent, picture), ranges, &mut written[0])
        }),
        Call::ReplaceTexel {
            picture: p,
            replacement,
            ..
        } => unit.replace_texel(p.kind, p.width, p.height, lent, ranges, replacement),
        Call::IrradianceSh4 { picture } => floats(words, |sh| unit.irradiance_sh4(&over(lent, picture), sh)),
        Call::CheckChain { picture, mode } => {
            wide(words, |verdict| unit.check_chain(&over(lent, picture), *mode, verdict))
        }
        Call::CheckLevel { picture, mode, level } => wide(words, |verdict| {
            unit.check_level(&over(lent, picture), *mode, *level, verdict)
        }),
        _ => ask_lookup(unit, call, words),
    });
    outcome.refusal = catch_unwind(answered).unwrap_or(PANICKED);
}

/// Asks a lookup that answers floats.
fn ask_lookup(unit: &dyn Unit, call: &Call, words: &mut [u32; 16]) -> u32 {
    match call {
        Call::Sample4Rgb {
            picture,
            codes,
            u,
            v,
            steps,
        } => floats(words, |rgb| unit.sample4_rgb(picture, *codes, u, v, steps, rgb)),
        Call::Sample4Alpha {
            picture,
            codes,
            u,
            v,
            steps,
        } => floats(words, |alpha| unit.sample4_alpha(picture, *codes, u, v, steps, alpha)),
        Call::SampleBilinearRgb {
            picture,
            codes,
            u,
            v,
            level,
            faces,
        } => floats(words, |rgb| {
            unit.sample_bilinear_rgb(picture, *codes, u, v, *level, faces, rgb)
        }),
        Call::SampleBilinearAlpha {
            picture,
            codes,
            u,
            v,
            level,
        } => floats(words, |alpha| {
            unit.sample_bilinear_alpha(picture, *codes, u, v, *level, alpha)
        }),
        Call::CubemapUvFromNormal { directions } => {
            let mut faces = [UNTOUCHED; 6];
            let refusal = floats(words, |uv| {
                unit.cubemap_uv_from_normal(directions, uv, faces.first_chunk_mut().unwrap())
            });
            words[10..].copy_from_slice(&faces);
            refusal
        }
        Call::SampleCubemapRgb {
            picture,
            directions,
            levels,
        } => floats(words, |rgb| unit.sample_cubemap_rgb(picture, directions, levels, rgb)),
        Call::SampleCubemapTrilinearRgb {
            picture,
            directions,
            levels,
        } => floats(words, |rgb| {
            unit.sample_cubemap_trilinear_rgb(picture, directions, levels, rgb)
        }),
        _ => unreachable!("not a lookup that answers floats"),
    }
}
