//! The texture unit of a viewing station: reducing pictures, cutting them, and looking colours up in them.
//!
//! The work is done by a library that is proved, call by call, against a paper of rules. This crate gives it Rust's types: slices
//! for buffers, [`Refusal`] for the numbers, [`Picture`] for a chain that the unit made itself or found to be right, [`Packing`] for
//! how its bytes are rounded, [`Verdict`] for what is wrong with another tool's chain, [`Ranges`] for the smallest and largest values
//! of a picture's tiles, [`IrradianceSh4`] for the light of a cubemap.
//!
//! ```
//! use swathecold::{Picture, TextureType};
//!
//! // two texels side by side: the next level is their mean
//! let picture = Picture::new(TextureType::Linear, 2, 1, &[0x00FF00FF, 0xFF0000FF])?;
//! assert_eq!(picture.level(1)?, [0x7F7F00FF]);
//! # Ok::<(), swathecold::Refusal>(())
//! ```
//!
//! Names follow the station's source: kinds are [`TextureType`], wraps [`WrapMode`], and the calls are named as its methods.

mod boundary;
mod calls;
mod irradiance;
mod picture;
mod ranges;
mod refusal;
mod types;
mod verdict;

pub use calls::{
    build_ranges, check_chain, check_level, compute_mip_level, cubemap_uv_from_normal, cut, cut_cross, generate_mipmaps,
    irradiance_sh4, level_sizes, level_view, replace_texel, sample4_alpha, sample4_rgb, sample_bilinear_alpha,
    sample_bilinear_rgb, sample_cubemap_rgb, sample_cubemap_trilinear_rgb,
};
pub use irradiance::IrradianceSh4;
pub use picture::Picture;
pub use ranges::{Ranges, Tile};
pub use refusal::Refusal;
pub use types::{CubemapUv, Cut, Lanes, LevelSizes, Packing, Sampler, TextureType, Vec3x4, WrapMode};
pub use verdict::{NotTaken, Verdict};
