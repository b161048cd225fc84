//! The records that go into the calls and come out of them.

/// Four numbers that travel together, one a lane.
pub type Lanes = [f32; 4];

/// Four directions, or four colours: x, y and z, or red, green and blue, of each lane.
#[derive(Clone, Copy, Debug, Default, PartialEq)]
pub struct Vec3x4 {
    pub x: Lanes,
    pub y: Lanes,
    pub z: Lanes,
}

/// What a picture holds, which decides how it is reduced.
#[derive(Clone, Copy, Debug, PartialEq, Eq)]
pub enum TextureType {
    /// Colour, encoded by the sRGB curve; alpha is linear.
    SRGB = 0,
    /// Directions, -1 to 1 as bytes.
    Normal = 1,
    /// Roughness in green, metal in blue.
    MetallicRoughness = 2,
    /// Six faces, +X -X +Y -Y +Z -Z.
    Cubemap = 3,
    /// Plain numbers.
    Linear = 4,
}

impl From<TextureType> for u32 {
    fn from(kind: TextureType) -> u32 {
        kind as u32
    }
}

/// How a reduced channel becomes a byte again. Truncating is the station's own way and the default; choose Nearest for levels that
/// are held beside those of a tool that rounds. It moves what a mean or a root is packed to: every channel of Normal, Cubemap and
/// Linear, green and blue of MetallicRoughness, and of SRGB alpha alone, since its colours have their own rule.
///
/// ```
/// use swathecold::{Packing, Picture, TextureType};
/// let pair = [0x00FF00FF, 0xFF0000FF];
/// let truncated = Picture::new(TextureType::Linear, 2, 1, &pair)?;
/// let rounded = Picture::with_packing(TextureType::Linear, 2, 1, Packing::Nearest, &pair)?;
/// assert_eq!(truncated.level(1)?, [0x7F7F00FF]);
/// assert_eq!(rounded.level(1)?, [0x808000FF]);
/// # Ok::<(), swathecold::Refusal>(())
/// ```
///
/// Levels of the two must not be mixed: a level made by one and reduced further by the other is a level of neither. Nothing in the
/// texels says how they were packed, so keep the packing beside a level that is saved; a [`Picture`](crate::Picture) does.
#[derive(Clone, Copy, Debug, Default, PartialEq, Eq)]
pub enum Packing {
    /// Down to the whole number below.
    #[default]
    Truncating = 0,
    /// To the nearest whole number, a half upward.
    Nearest = 1,
}

impl From<Packing> for u32 {
    fn from(packing: Packing) -> u32 {
        packing as u32
    }
}

/// What happens to a texel number outside the side, by glTF's codes.
#[derive(Clone, Copy, Debug, Default, PartialEq, Eq)]
pub enum WrapMode {
    /// The file gave none: glTF 2.0's default along both axes, Repeat.
    #[default]
    NotGiven = 0,
    Repeat = 10497,
    ClampToEdge = 33071,
    MirroredRepeat = 33648,
}

impl From<WrapMode> for u32 {
    fn from(mode: WrapMode) -> u32 {
        mode as u32
    }
}

/// The wrap codes along u and along v. The fields are numbers, as a file has them: an unknown one is refused by the call. The
/// default is not given, along both axes.
///
/// ```
/// use swathecold::{Sampler, WrapMode};
/// let sampler = Sampler::new(WrapMode::Repeat, WrapMode::ClampToEdge);
/// assert_eq!(sampler, Sampler { wrap_s: 10497, wrap_t: 33071 });
/// ```
///
/// A wrap that is not given is Repeat: beyond an edge stands the texel of the opposite one.
///
/// ```
/// use swathecold::{Picture, Sampler, TextureType, WrapMode};
/// let picture = Picture::new(TextureType::Linear, 2, 1, &[0x000000FF, 0xFF0000FF])?;
/// let (u, v, steps) = ([-0.25, 0.25, 0.75, 1.25], [0.5; 4], [0.0; 4]);
/// assert_eq!(picture.sample4_rgb(Sampler::default(), u, v, steps)?.x, [1.0, 0.0, 1.0, 0.0]);
///
/// let held = Sampler::new(WrapMode::ClampToEdge, WrapMode::ClampToEdge);
/// assert_eq!(picture.sample4_rgb(held, u, v, steps)?.x, [0.0, 0.0, 1.0, 1.0]);
/// # Ok::<(), swathecold::Refusal>(())
/// ```
#[derive(Clone, Copy, Debug, Default, PartialEq, Eq)]
pub struct Sampler {
    pub wrap_s: u32,
    pub wrap_t: u32,
}

impl Sampler {
    pub fn new(wrap_s: WrapMode, wrap_t: WrapMode) -> Sampler {
        Sampler { wrap_s: wrap_s.into(), wrap_t: wrap_t.into() }
    }
}

/// Where a level stands in its chain.
#[derive(Clone, Copy, Debug, PartialEq, Eq)]
pub struct LevelSizes {
    /// The level's first texel in the chain.
    pub start: usize,
    pub width: u32,
    pub height: u32,
    /// How many texels the whole chain has.
    pub total: usize,
}

/// A part of a picture whose corner and sides are multiples of 2 to the `order`: its first `order` reductions are the
/// matching cuts of the whole picture's.
#[derive(Clone, Copy, Debug, PartialEq, Eq)]
pub struct Cut {
    pub order: u32,
    pub x: u32,
    pub y: u32,
    pub width: u32,
    pub height: u32,
}

/// Where four directions meet a cube: places on the faces, 0 to 1, and the faces.
#[derive(Clone, Copy, Debug, PartialEq)]
pub struct CubemapUv {
    pub u: Lanes,
    pub v: Lanes,
    pub faces: [u32; 4],
}
