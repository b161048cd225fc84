//! Document 01 read plainly, with document 02's changes: every call of swathecold.h, refusals included, simple rather than fast.
//!
//! It is written from the papers and the header alone. A call answers `Ok` with what 01 says it answers, or `Err` with
//! the refusal number; where it refuses, no lent buffer has changed. The small rules that 01 states in one sentence
//! each stand in `rules`, so that a deliberate slip can take the place of one of them.

mod bilinear;
mod chain;
mod check;
mod cross;
mod cubemap;
mod curve;
mod cut;
mod face;
mod irradiance;
mod level;
mod nearest;
mod ranges;
mod reduce;
mod refusals;
mod rules;
mod sizes;
mod texel;
mod view;
mod whole;
mod wrap;

#[cfg(test)]
mod laws;
#[cfg(test)]
mod reference;

pub use bilinear::{sample_bilinear_alpha, sample_bilinear_rgb};
pub use chain::generate_mipmaps;
pub use check::{check_chain, check_level, Verdict, FOLLOWS};
pub use cross::cut_cross;
pub use cubemap::{has_exact_half, sample_cubemap_rgb, sample_cubemap_trilinear_rgb, trilinear_levels};
pub use curve::{decoded, decoded_table};
pub use cut::{cut, Cut};
pub use face::{cubemap_uv_from_normal, on_face, OnFace};
pub use irradiance::{folded, irradiance_sh4, on_cube};
pub use level::compute_mip_level;
pub use nearest::{sample4_alpha, sample4_rgb};
pub use ranges::{build_ranges, ranges_bytes, replace_texel, Replacement};
pub use rules::{Axis, Document01, Rules};
pub use sizes::{chain_texels, level_sizes, level_texels, top_level};
pub use view::level_view;
pub use wrap::Wrap;

/// The four lanes travel together as one record of four numbers.
pub type Lanes = [f32; 4];

/// A refusal answers the number only.
pub type Answer<T> = Result<T, u32>;

/// Kind codes: 0 SRGB, 1 Normal, 2 MetallicRoughness, 3 Cubemap, 4 Linear.
pub const SRGB: u32 = 0;
pub const NORMAL: u32 = 1;
pub const METALLIC_ROUGHNESS: u32 = 2;
pub const CUBEMAP: u32 = 3;
pub const LINEAR: u32 = 4;

/// T-06's modes of packing: 0 truncating, 1 nearest.
pub const TRUNCATING: u32 = 0;
pub const NEAREST: u32 = 1;

/// A picture as a call is given it: kind and sides by value, the buffer beside them.
#[derive(Clone, Copy)]
pub struct Lent<'a> {
    pub kind: u32,
    pub width: u32,
    pub height: u32,
    pub texels: &'a [u32],
}
