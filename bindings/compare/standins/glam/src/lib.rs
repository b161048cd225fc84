//! Stands in for glam: each operation lane by lane, each lane one f32 operation rounded once.
//!
//! The real glam could not be had. These are the types and calls that the source's text names, and no more. What an
//! exact half is rounded to is this crate's choice (the even neighbour), and says nothing about glam.

mod lanes;
mod masks;
mod uvec4;
mod vec4;
mod vectors;

pub use masks::{BVec4, BVec4A};
pub use uvec4::UVec4;
pub use vec4::Vec4;
pub use vectors::{Mat4, Vec2, Vec3A};
