//! The unit's calls. Every number is taken and every buffer: what is wrong with them is refused by the paper's numbers.
//!
//! Safety of the calls below: a slice goes in as its own pointer and length, an array as a pointer to that many entries, an out
//! parameter is a local, and Rust's borrows keep them apart. The unit itself is proved to stay inside what it is lent.

use crate::boundary as c;
use crate::irradiance::IrradianceSh4;
use crate::refusal::Refusal;
use crate::types::{CubemapUv, Cut, Lanes, LevelSizes, Sampler, Vec3x4};
use crate::verdict::Verdict;

/// Twelve numbers as the boundary hands them out: four reds, four greens, four blues.
fn lanes_of(rgb: [f32; 12]) -> Vec3x4 {
    let four = |at: usize| [rgb[at], rgb[at + 1], rgb[at + 2], rgb[at + 3]];
    Vec3x4 { x: four(0), y: four(4), z: four(8) }
}

/// Where a level starts, its sides, and the chain's texel count. Refusals: 1, 2, 6.
///
/// ```
/// use swathecold::{level_sizes, TextureType};
/// let level = level_sizes(TextureType::Linear, 5, 3, 1)?;
/// assert_eq!((level.start, level.width, level.height, level.total), (15, 2, 1, 18));
/// # Ok::<(), swathecold::Refusal>(())
/// ```
pub fn level_sizes(kind: impl Into<u32>, width: u32, height: u32, level: u32) -> Result<LevelSizes, Refusal> {
    let mut sizes = [0u64; 4];
    Refusal::of(unsafe { c::swathecold_level_sizes(kind.into(), width, height, level, sizes.as_mut_ptr()) })?;
    let [start, width, height, total] = sizes;
    Ok(LevelSizes { start: start as usize, width: width as u32, height: height as u32, total: total as usize })
}

/// Level 0 stands in `texels`; fills the levels behind it and answers how many texels the chain has. Entries past them stay. A level
/// that is reduced further goes on by the [`Packing`](crate::Packing) that it was made by. Refusals: 1, 2, 3, 15.
///
/// ```
/// use swathecold::{generate_mipmaps, Packing, TextureType};
/// let mut texels = [0xFF0000FF, 0x000000FF, 0];
/// assert_eq!(generate_mipmaps(TextureType::SRGB, 2, 1, Packing::Truncating, &mut texels)?, 3);
/// assert_eq!(texels[2], 0xBB0000FF);
/// # Ok::<(), swathecold::Refusal>(())
/// ```
pub fn generate_mipmaps(
    kind: impl Into<u32>,
    width: u32,
    height: u32,
    packing: impl Into<u32>,
    texels: &mut [u32],
) -> Result<usize, Refusal> {
    let mut written = 0;
    let (at, len) = (texels.as_mut_ptr(), texels.len());
    Refusal::of(unsafe { c::swathecold_generate_mipmaps(kind.into(), width, height, packing.into(), at, len, &mut written) })?;
    Ok(written as usize)
}

/// Whether every level of a chain follows from the one before, whoever made it, or which texel is the first that is wrong. Entries past
/// the chain are not looked at. Refusals: 1, 2, 3, 15.
///
/// ```
/// use swathecold::{check_chain, Packing, TextureType, Verdict};
/// // another tool's chain of two texels: it has rounded their mean
/// let chain = [0x00FF00FF, 0xFF0000FF, 0x808000FF];
/// assert_eq!(check_chain(TextureType::Linear, 2, 1, Packing::Nearest, &chain)?, Verdict::Follows);
///
/// let truncated = check_chain(TextureType::Linear, 2, 1, Packing::Truncating, &chain)?;
/// let said = "wrong at texel 2 (level 1, face 0, x 0, y 0): found 808000FF, expected 7F7F00FF";
/// assert_eq!(truncated.to_string(), said);
/// # Ok::<(), swathecold::Refusal>(())
/// ```
pub fn check_chain(
    kind: impl Into<u32>,
    width: u32,
    height: u32,
    packing: impl Into<u32>,
    texels: &[u32],
) -> Result<Verdict, Refusal> {
    let (kind, packing, at, len) = (kind.into(), packing.into(), texels.as_ptr(), texels.len());
    let mut verdict = [0u64; 2];
    Refusal::of(unsafe { c::swathecold_check_chain(kind, width, height, packing, at, len, verdict.as_mut_ptr()) })?;
    Verdict::of(verdict, kind, width, height, packing, texels)
}

/// The same of one level, given the one before as it is found in the chain; level 0 always follows. One wrong texel shows in its own
/// level, and in the next one at most in the texel that is made of it. Refusals: 1, 2, 3, 15, 6.
///
/// ```
/// use swathecold::{check_level, Packing, Picture, TextureType};
/// let picture = Picture::new(TextureType::Linear, 16, 1, &[0x20202020; 16])?;
/// let mut chain = picture.texels().to_vec();
///
/// // a texel of level 1: levels 3 and 4 are not blamed for it
/// chain[17] = 0xA0A0A0A0;
/// for (level, follows) in [true, false, false, true, true].into_iter().enumerate() {
///     let verdict = check_level(TextureType::Linear, 16, 1, Packing::Truncating, &chain, level as u32)?;
///     assert_eq!(verdict.follows(), follows, "level {level}: {verdict}");
/// }
/// # Ok::<(), swathecold::Refusal>(())
/// ```
pub fn check_level(
    kind: impl Into<u32>,
    width: u32,
    height: u32,
    packing: impl Into<u32>,
    texels: &[u32],
    level: u32,
) -> Result<Verdict, Refusal> {
    let (kind, packing, at, len) = (kind.into(), packing.into(), texels.as_ptr(), texels.len());
    let mut verdict = [0u64; 2];
    Refusal::of(unsafe { c::swathecold_check_level(kind, width, height, packing, at, len, level, verdict.as_mut_ptr()) })?;
    Verdict::of(verdict, kind, width, height, packing, texels)
}

/// The six faces of a cross of `width * height` RGBA pixels, one behind the other; answers the texels written. Refusals: 10, 3.
pub fn cut_cross(width: u32, height: u32, bytes: &[u8], faces: &mut [u32]) -> Result<usize, Refusal> {
    let mut written = 0;
    let (at, len) = (faces.as_mut_ptr(), faces.len());
    Refusal::of(unsafe { c::swathecold_cut_cross(width, height, bytes.as_ptr(), bytes.len(), at, len, &mut written) })?;
    Ok(written as usize)
}

/// Part of a picture's level 0; answers the texels written. Refusals: 1, 2, 3, 8, 11, 3.
pub fn cut(
    kind: impl Into<u32>,
    width: u32,
    height: u32,
    source: &[u32],
    part: Cut,
    target: &mut [u32],
) -> Result<usize, Refusal> {
    let mut written = 0;
    let (from, from_len, to, to_len) = (source.as_ptr(), source.len(), target.as_mut_ptr(), target.len());
    let Cut { order, x, y, width: cut_width, height: cut_height } = part;
    Refusal::of(unsafe {
        c::swathecold_cut(
            kind.into(),
            width,
            height,
            from,
            from_len,
            order,
            x,
            y,
            cut_width,
            cut_height,
            to,
            to_len,
            &mut written,
        )
    })?;
    Ok(written as usize)
}

/// A level itself, of a cubemap one face of it, as part of the chain that is lent. Refusals: 1, 2, 3, 8, 6.
pub fn level_view(
    kind: impl Into<u32>,
    width: u32,
    height: u32,
    texels: &[u32],
    level: u32,
    face: u32,
) -> Result<&[u32], Refusal> {
    let mut part = [0u64; 2];
    let (at, len) = (texels.as_ptr(), texels.len());
    Refusal::of(unsafe { c::swathecold_level_view(kind.into(), width, height, at, len, level, face, part.as_mut_ptr()) })?;
    Ok(&texels[part[0] as usize..][..part[1] as usize])
}

/// The level that four steps ask for; the sides are level 0's. Refusals: 2, 5.
///
/// ```
/// let sixteenth = 1.0 / 16.0;
/// assert_eq!(swathecold::compute_mip_level(64, 64, [sixteenth, 0.0, 0.0, sixteenth])?, 2);
/// # Ok::<(), swathecold::Refusal>(())
/// ```
pub fn compute_mip_level(width: u32, height: u32, du_dv: Lanes) -> Result<u32, Refusal> {
    let mut level = 0;
    Refusal::of(unsafe { c::swathecold_compute_mip_level(width, height, du_dv.as_ptr(), &mut level) })?;
    Ok(level)
}

/// The nearest texel's colour in four lanes, at the level that the steps ask for. Refusals: 1, 2, 3, 8, 4, 5.
#[allow(clippy::too_many_arguments)]
pub fn sample4_rgb(
    kind: impl Into<u32>,
    width: u32,
    height: u32,
    texels: &[u32],
    sampler: Sampler,
    u: Lanes,
    v: Lanes,
    du_dv: Lanes,
) -> Result<Vec3x4, Refusal> {
    let mut rgb = [0.0; 12];
    let (at, len, s, t) = (texels.as_ptr(), texels.len(), sampler.wrap_s, sampler.wrap_t);
    let (u, v, steps, out) = (u.as_ptr(), v.as_ptr(), du_dv.as_ptr(), rgb.as_mut_ptr());
    Refusal::of(unsafe { c::swathecold_sample4_rgb(kind.into(), width, height, at, len, s, t, u, v, steps, out) })?;
    Ok(lanes_of(rgb))
}

/// The same for alpha. Refusals: 1, 2, 3, 8, 4, 5.
#[allow(clippy::too_many_arguments)]
pub fn sample4_alpha(
    kind: impl Into<u32>,
    width: u32,
    height: u32,
    texels: &[u32],
    sampler: Sampler,
    u: Lanes,
    v: Lanes,
    du_dv: Lanes,
) -> Result<Lanes, Refusal> {
    let mut alpha = [0.0; 4];
    let (at, len, s, t) = (texels.as_ptr(), texels.len(), sampler.wrap_s, sampler.wrap_t);
    let (u, v, steps, out) = (u.as_ptr(), v.as_ptr(), du_dv.as_ptr(), alpha.as_mut_ptr());
    Refusal::of(unsafe { c::swathecold_sample4_alpha(kind.into(), width, height, at, len, s, t, u, v, steps, out) })?;
    Ok(alpha)
}

/// Four colours, each blended from four texels of one level. `array_slice` is 0 in each lane but for a cubemap, whose faces are
/// wrapped each by itself: a wrap that is not given repeats across the face's own edge, ClampToEdge holds it.
/// Refusals: 1, 2, 3, 8, 4, 6, 5.
#[allow(clippy::too_many_arguments)]
pub fn sample_bilinear_rgb(
    kind: impl Into<u32>,
    width: u32,
    height: u32,
    texels: &[u32],
    sampler: Sampler,
    u: Lanes,
    v: Lanes,
    mip_level: u32,
    array_slice: [u32; 4],
) -> Result<Vec3x4, Refusal> {
    let mut rgb = [0.0; 12];
    let (at, len, s, t) = (texels.as_ptr(), texels.len(), sampler.wrap_s, sampler.wrap_t);
    let (u, v, faces, out) = (u.as_ptr(), v.as_ptr(), array_slice.as_ptr(), rgb.as_mut_ptr());
    Refusal::of(unsafe {
        c::swathecold_sample_bilinear_rgb(kind.into(), width, height, at, len, s, t, u, v, mip_level, faces, out)
    })?;
    Ok(lanes_of(rgb))
}

/// The same for alpha, which blends along x first and then along y; no cubemap. Refusals: 1, 2, 3, 8, 4, 6, 5.
#[allow(clippy::too_many_arguments)]
pub fn sample_bilinear_alpha(
    kind: impl Into<u32>,
    width: u32,
    height: u32,
    texels: &[u32],
    sampler: Sampler,
    u: Lanes,
    v: Lanes,
    mip_level: u32,
) -> Result<Lanes, Refusal> {
    let mut alpha = [0.0; 4];
    let (at, len, s, t) = (texels.as_ptr(), texels.len(), sampler.wrap_s, sampler.wrap_t);
    let (u, v, out) = (u.as_ptr(), v.as_ptr(), alpha.as_mut_ptr());
    Refusal::of(unsafe { c::swathecold_sample_bilinear_alpha(kind.into(), width, height, at, len, s, t, u, v, mip_level, out) })?;
    Ok(alpha)
}

/// Four directions to their faces, +X -X +Y -Y +Z -Z as 0 to 5, and the places on them. Refusal: 7.
///
/// ```
/// use swathecold::{cubemap_uv_from_normal, Vec3x4};
/// let up = Vec3x4 { x: [0.0; 4], y: [2.0; 4], z: [1.0; 4] };
/// let found = cubemap_uv_from_normal(up)?;
/// assert_eq!((found.faces[0], found.u[0], found.v[0]), (2, 0.5, 0.75));
/// # Ok::<(), swathecold::Refusal>(())
/// ```
pub fn cubemap_uv_from_normal(n: Vec3x4) -> Result<CubemapUv, Refusal> {
    let (mut uv, mut faces) = ([0.0; 8], [0u32; 4]);
    let (x, y, z) = (n.x.as_ptr(), n.y.as_ptr(), n.z.as_ptr());
    Refusal::of(unsafe { c::swathecold_cubemap_uv_from_normal(x, y, z, uv.as_mut_ptr(), faces.as_mut_ptr()) })?;
    Ok(CubemapUv { u: [uv[0], uv[1], uv[2], uv[3]], v: [uv[4], uv[5], uv[6], uv[7]], faces })
}

/// The nearest texel of a cubemap in four directions; a level above the top is lowered to it. Refusals: 1, 2, 3, 8, 7.
pub fn sample_cubemap_rgb(
    kind: impl Into<u32>,
    width: u32,
    height: u32,
    texels: &[u32],
    normal: Vec3x4,
    mip_level: [u32; 4],
) -> Result<Vec3x4, Refusal> {
    let mut rgb = [0.0; 12];
    let (at, len, x, y, z) = (texels.as_ptr(), texels.len(), normal.x.as_ptr(), normal.y.as_ptr(), normal.z.as_ptr());
    let (levels, out) = (mip_level.as_ptr(), rgb.as_mut_ptr());
    Refusal::of(unsafe { c::swathecold_sample_cubemap_rgb(kind.into(), width, height, at, len, x, y, z, levels, out) })?;
    Ok(lanes_of(rgb))
}

/// The same between two levels; a fractional level outside 0 to the top is held to it. Refusals: 1, 2, 3, 8, 7, 5.
pub fn sample_cubemap_trilinear_rgb(
    kind: impl Into<u32>,
    width: u32,
    height: u32,
    texels: &[u32],
    normal: Vec3x4,
    mip_level: Lanes,
) -> Result<Vec3x4, Refusal> {
    let mut rgb = [0.0; 12];
    let (at, len, x, y, z) = (texels.as_ptr(), texels.len(), normal.x.as_ptr(), normal.y.as_ptr(), normal.z.as_ptr());
    let (levels, out) = (mip_level.as_ptr(), rgb.as_mut_ptr());
    Refusal::of(unsafe {
        c::swathecold_sample_cubemap_trilinear_rgb(kind.into(), width, height, at, len, x, y, z, levels, out)
    })?;
    Ok(lanes_of(rgb))
}

/// The ranges of a picture that is no cubemap: for every tile of 16 by 16 texels of level 0, edge tiles smaller, eight bytes, red's
/// smallest, red's largest, green's smallest, and so on to alpha's largest. Tiles go row by row, `width.div_ceil(16)` a row. Answers
/// the bytes written; entries past them stay. Only level 0 is read. Refusals: 1, 2, 3 (level 0), 3 (the ranges), 8.
///
/// ```
/// use swathecold::{build_ranges, TextureType};
/// let mut ranges = [0; 8];
/// assert_eq!(build_ranges(TextureType::Linear, 2, 1, &[0x102030FF, 0x40200080], &mut ranges)?, 8);
/// assert_eq!(ranges, [0x10, 0x40, 0x20, 0x20, 0x00, 0x30, 0x80, 0xFF]);
/// # Ok::<(), swathecold::Refusal>(())
/// ```
pub fn build_ranges(kind: impl Into<u32>, width: u32, height: u32, texels: &[u32], ranges: &mut [u8]) -> Result<usize, Refusal> {
    let mut written = 0;
    let (from, from_len, to, to_len) = (texels.as_ptr(), texels.len(), ranges.as_mut_ptr(), ranges.len());
    Refusal::of(unsafe { c::swathecold_build_ranges(kind.into(), width, height, from, from_len, to, to_len, &mut written) })?;
    Ok(written as usize)
}

/// Replaces the texel of level 0 at (x, y) and works out its tile's eight bytes, whatever the ranges held before. Nothing else
/// changes: the levels behind level 0 stay those of the old one until [`generate_mipmaps`] fills them again.
/// Refusals: 1, 2, 3 (level 0), 3 (the ranges), 8, 14.
///
/// ```
/// use swathecold::{build_ranges, replace_texel, TextureType};
/// let (mut texels, mut ranges) = ([0x102030FF, 0x40200080], [0; 8]);
/// build_ranges(TextureType::Linear, 2, 1, &texels, &mut ranges)?;
///
/// // the largest red leaves, and its range shrinks
/// replace_texel(TextureType::Linear, 2, 1, &mut texels, &mut ranges, 1, 0, 0x182838FF)?;
/// assert_eq!(texels, [0x102030FF, 0x182838FF]);
/// assert_eq!(ranges, [0x10, 0x18, 0x20, 0x28, 0x30, 0x38, 0xFF, 0xFF]);
/// # Ok::<(), swathecold::Refusal>(())
/// ```
#[allow(clippy::too_many_arguments)]
pub fn replace_texel(
    kind: impl Into<u32>,
    width: u32,
    height: u32,
    texels: &mut [u32],
    ranges: &mut [u8],
    x: u32,
    y: u32,
    texel: u32,
) -> Result<(), Refusal> {
    let (at, len, beside, beside_len) = (texels.as_mut_ptr(), texels.len(), ranges.as_mut_ptr(), ranges.len());
    Refusal::of(unsafe { c::swathecold_replace_texel(kind.into(), width, height, at, len, beside, beside_len, x, y, texel) })
}

/// The light of a cubemap's level 0 as irradiance coefficients: each texel is decoded by the sRGB curve and counts by the solid
/// angle that it fills. Only level 0 is read. Refusals: 1, 2, 3 (level 0), 8 for any kind but a cubemap.
///
/// The sums are f32 numbers, and beside a large sum a texel's small share is rounded off: with sides up to 256 the sums are right
/// to 1 in 10,000, at 1024 to 1 in 100, and of a white cube 4096 square 0.43 is left. So sum a level with sides up to 256, by
/// [`Picture::reopen`](crate::Picture::reopen), and none much smaller: a reduction takes the mean of bytes that are still encoded,
/// which dims the rims of lamps.
///
/// ```
/// use swathecold::{irradiance_sh4, TextureType};
/// let white = irradiance_sh4(TextureType::Cubemap, 16, 16, &[0xFFFFFFFF; 6 * 16 * 16])?;
/// let [constant, y, z, x] = white.sh.map(|colour| colour[0]);
/// assert!((constant - std::f32::consts::PI).abs() < 0.01);
/// assert!([y, z, x].iter().all(|c| c.abs() < 0.00001));
/// # Ok::<(), swathecold::Refusal>(())
/// ```
pub fn irradiance_sh4(kind: impl Into<u32>, width: u32, height: u32, texels: &[u32]) -> Result<IrradianceSh4, Refusal> {
    let mut sh = [[0.0; 3]; 4];
    let (at, len, out) = (texels.as_ptr(), texels.len(), sh.as_mut_ptr().cast());
    Refusal::of(unsafe { c::swathecold_irradiance_sh4(kind.into(), width, height, at, len, out) })?;
    Ok(IrradianceSh4 { sh })
}
