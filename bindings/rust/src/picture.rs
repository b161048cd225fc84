//! A picture with its levels, made or checked by the unit.

use crate::calls;
use crate::irradiance::IrradianceSh4;
use crate::ranges::Ranges;
use crate::refusal::Refusal;
use crate::types::{Cut, Lanes, LevelSizes, Packing, Sampler, TextureType, Vec3x4};
use crate::verdict::NotTaken;

/// A picture with all its levels. It holds its chain to itself, so the levels are always those that the unit makes of its level 0,
/// and it says how often that level 0 was reduced since it was brought in, and by which packing. Pictures that are made of it keep
/// that packing, so no chain has levels of both.
///
/// ```
/// use swathecold::{Picture, TextureType};
/// let grain: Vec<u32> = (0..64u32).map(|i| (i * 4) << 24 | 0xFF).collect();
/// let picture = Picture::new(TextureType::Linear, 8, 8, &grain)?;
///
/// // reducing twice, reopening, reducing once is level 3
/// let again = picture.reopen(2)?;
/// assert_eq!(again.level(1)?, picture.level(3)?);
/// assert_eq!((picture.reductions(), again.reductions()), (0, 2));
/// # Ok::<(), swathecold::Refusal>(())
/// ```
#[derive(Clone, Debug, PartialEq, Eq)]
pub struct Picture {
    texture_type: TextureType,
    width: u32,
    height: u32,
    packing: Packing,
    reductions: u32,
    texels: Vec<u32>,
}

impl Picture {
    /// The picture whose level 0 begins `level0`, row by row; a cubemap's six faces one behind the other. Its levels are truncated.
    /// Refusals: 1, 2, 3.
    pub fn new(texture_type: TextureType, width: u32, height: u32, level0: &[u32]) -> Result<Picture, Refusal> {
        Picture::with_packing(texture_type, width, height, Packing::Truncating, level0)
    }

    /// The same with levels by the packing that is named. A level 0 that is itself a reduced level, from a file, goes on by the
    /// packing that it was made by. Refusals: as of `new`.
    ///
    /// ```
    /// use swathecold::{Packing, Picture, TextureType};
    /// let grain: Vec<u32> = (0..64u32).map(|i| (i * i) << 16 | 0xFF).collect();
    /// let picture = Picture::with_packing(TextureType::Linear, 8, 8, Packing::Nearest, &grain)?;
    ///
    /// // a level reopened goes on as it was made
    /// let again = picture.reopen(1)?;
    /// assert_eq!(again.packing(), Packing::Nearest);
    /// assert_eq!(again.level(2)?, picture.level(3)?);
    ///
    /// // saved without its packing and opened by the other it is another picture
    /// let mixed = Picture::new(TextureType::Linear, 4, 4, picture.level(1)?)?;
    /// assert_ne!(mixed.level(2)?, picture.level(3)?);
    /// # Ok::<(), swathecold::Refusal>(())
    /// ```
    pub fn with_packing(
        texture_type: TextureType,
        width: u32,
        height: u32,
        packing: Packing,
        level0: &[u32],
    ) -> Result<Picture, Refusal> {
        let LevelSizes { total, .. } = calls::level_sizes(texture_type, width, height, 0)?;
        let faces = if texture_type == TextureType::Cubemap { 6 } else { 1 };
        let first = faces * width as usize * height as usize;
        if level0.len() < first {
            // shorter than the level is shorter than the chain: the unit refuses what is lent
            calls::level_view(texture_type, width, height, level0, 0, 0)?;
        }
        let mut texels = Vec::with_capacity(total);
        texels.extend_from_slice(&level0[..first]);
        texels.resize(total, 0);
        calls::generate_mipmaps(texture_type, width, height, packing, &mut texels)?;
        Ok(Picture { texture_type, width, height, packing, reductions: 0, texels })
    }

    /// The picture whose chain begins `chain`, levels and all, as another tool made it by the packing that is named: taken only where
    /// every level follows from the one before. It is then the picture that [`Picture::with_packing`] makes of its level 0.
    /// Refusals: as of `new`.
    ///
    /// ```
    /// use swathecold::{NotTaken, Packing, Picture, TextureType};
    /// let sent = [0x00FF00FF, 0xFF0000FF, 0x808000FF];
    /// let picture = Picture::from_chain(TextureType::Linear, 2, 1, Packing::Nearest, &sent)?;
    /// assert_eq!(picture, Picture::with_packing(TextureType::Linear, 2, 1, Packing::Nearest, &sent)?);
    ///
    /// match Picture::from_chain(TextureType::Linear, 2, 1, Packing::Truncating, &sent) {
    ///     Err(NotTaken::Wrong(verdict)) => println!("{verdict}"),
    ///     other => panic!("{other:?}"),
    /// }
    /// # Ok::<(), NotTaken>(())
    /// ```
    pub fn from_chain(
        texture_type: TextureType,
        width: u32,
        height: u32,
        packing: Packing,
        chain: &[u32],
    ) -> Result<Picture, NotTaken> {
        let verdict = calls::check_chain(texture_type, width, height, packing, chain)?;
        if !verdict.follows() {
            return Err(NotTaken::Wrong(verdict));
        }
        let LevelSizes { total, .. } = calls::level_sizes(texture_type, width, height, 0)?;
        Ok(Picture { texture_type, width, height, packing, reductions: 0, texels: chain[..total].to_vec() })
    }

    /// The picture of a level 0 that was reduced this often, all by one packing. Refusals: as of `new`.
    pub(crate) fn reduced(
        reductions: u32,
        texture_type: TextureType,
        width: u32,
        height: u32,
        packing: Packing,
        level0: &[u32],
    ) -> Result<Picture, Refusal> {
        Ok(Picture { reductions, ..Picture::with_packing(texture_type, width, height, packing, level0)? })
    }

    /// A level of this picture as a picture of its own, which knows how often it was reduced and goes on by the same packing.
    /// Refusal: 6.
    pub fn reopen(&self, level: u32) -> Result<Picture, Refusal> {
        let sizes = self.level_sizes(level)?;
        let (reductions, from) = (self.reductions + level, &self.texels[sizes.start..]);
        Picture::reduced(reductions, self.texture_type, sizes.width, sizes.height, self.packing, from)
    }

    /// An aligned part of level 0 as a picture of its own, by the same packing. Refusals: 8, 11.
    pub fn cut(&self, part: Cut) -> Result<Picture, Refusal> {
        let room = part.width.min(4096) as usize * part.height.min(4096) as usize;
        let mut target = vec![0; room];
        calls::cut(self.texture_type, self.width, self.height, &self.texels, part, &mut target)?;
        Picture::reduced(self.reductions, self.texture_type, part.width, part.height, self.packing, &target)
    }

    /// The ranges of level 0, beside a copy of it that can be changed texel by texel. Refusal: 8 for a cubemap.
    pub fn ranges(&self) -> Result<Ranges, Refusal> {
        Ranges::of(self)
    }

    /// The light of level 0 as four colours: the constant, then what y, z and x add. With sides above 256, reopen a reduced level
    /// and ask that: [`crate::irradiance_sh4`] says why. Refusal: 8 for any kind but a cubemap.
    ///
    /// ```
    /// use std::f32::consts::PI;
    /// use swathecold::{Picture, TextureType};
    /// // a dim room, whose ceiling, face 2, is a lamp
    /// let mut faces = [0x202020FF; 6 * 16];
    /// faces[2 * 16..3 * 16].fill(0xFFFFFFFF);
    /// let light = Picture::new(TextureType::Cubemap, 4, 4, &faces)?.irradiance_sh4()?;
    ///
    /// // a grey ball of albedo 0.5: its top, its side, its bottom
    /// let grey = |normal| 0.5 / PI * light.on(normal)[0];
    /// let [top, side, bottom] = [[0.0, 1.0, 0.0], [1.0, 0.0, 0.0], [0.0, -1.0, 0.0]].map(grey);
    /// assert!(top > side && side > bottom);
    /// # Ok::<(), swathecold::Refusal>(())
    /// ```
    pub fn irradiance_sh4(&self) -> Result<IrradianceSh4, Refusal> {
        calls::irradiance_sh4(self.texture_type, self.width, self.height, &self.texels)
    }

    pub fn texture_type(&self) -> TextureType {
        self.texture_type
    }

    pub fn width(&self) -> u32 {
        self.width
    }

    pub fn height(&self) -> u32 {
        self.height
    }

    /// How the levels were packed, and how those of a picture that is made of this one are.
    pub fn packing(&self) -> Packing {
        self.packing
    }

    /// How often level 0 was reduced since it was brought in.
    pub fn reductions(&self) -> u32 {
        self.reductions
    }

    /// The top level: levels are numbered 0 to this.
    pub fn max_mip_level(&self) -> u32 {
        self.width.max(self.height).ilog2()
    }

    /// The whole chain.
    pub fn texels(&self) -> &[u32] {
        &self.texels
    }

    /// Where a level stands in the chain. Refusal: 6.
    pub fn level_sizes(&self, level: u32) -> Result<LevelSizes, Refusal> {
        calls::level_sizes(self.texture_type, self.width, self.height, level)
    }

    /// A level of a picture that is no cubemap. Refusals: 6; 8 is not given, since face 0 is there for every kind: of a cubemap
    /// this is face +X.
    pub fn level(&self, level: u32) -> Result<&[u32], Refusal> {
        self.face(level, 0)
    }

    /// One face of a level. Refusals: 8, 6.
    pub fn face(&self, level: u32, face: u32) -> Result<&[u32], Refusal> {
        calls::level_view(self.texture_type, self.width, self.height, &self.texels, level, face)
    }

    /// See [`crate::compute_mip_level`].
    pub fn compute_mip_level(&self, du_dv: Lanes) -> Result<u32, Refusal> {
        calls::compute_mip_level(self.width, self.height, du_dv)
    }

    /// See [`crate::sample4_rgb`].
    pub fn sample4_rgb(&self, sampler: Sampler, u: Lanes, v: Lanes, du_dv: Lanes) -> Result<Vec3x4, Refusal> {
        calls::sample4_rgb(self.texture_type, self.width, self.height, &self.texels, sampler, u, v, du_dv)
    }

    /// See [`crate::sample4_alpha`].
    pub fn sample4_alpha(&self, sampler: Sampler, u: Lanes, v: Lanes, du_dv: Lanes) -> Result<Lanes, Refusal> {
        calls::sample4_alpha(self.texture_type, self.width, self.height, &self.texels, sampler, u, v, du_dv)
    }

    /// See [`crate::sample_bilinear_rgb`].
    pub fn sample_bilinear_rgb(
        &self,
        sampler: Sampler,
        u: Lanes,
        v: Lanes,
        mip_level: u32,
        array_slice: [u32; 4],
    ) -> Result<Vec3x4, Refusal> {
        let (kind, width, height) = (self.texture_type, self.width, self.height);
        calls::sample_bilinear_rgb(kind, width, height, &self.texels, sampler, u, v, mip_level, array_slice)
    }

    /// See [`crate::sample_bilinear_alpha`].
    pub fn sample_bilinear_alpha(&self, sampler: Sampler, u: Lanes, v: Lanes, mip_level: u32) -> Result<Lanes, Refusal> {
        calls::sample_bilinear_alpha(self.texture_type, self.width, self.height, &self.texels, sampler, u, v, mip_level)
    }

    /// See [`crate::sample_cubemap_rgb`].
    pub fn sample_cubemap_rgb(&self, normal: Vec3x4, mip_level: [u32; 4]) -> Result<Vec3x4, Refusal> {
        calls::sample_cubemap_rgb(self.texture_type, self.width, self.height, &self.texels, normal, mip_level)
    }

    /// See [`crate::sample_cubemap_trilinear_rgb`].
    pub fn sample_cubemap_trilinear_rgb(&self, normal: Vec3x4, mip_level: Lanes) -> Result<Vec3x4, Refusal> {
        calls::sample_cubemap_trilinear_rgb(self.texture_type, self.width, self.height, &self.texels, normal, mip_level)
    }
}
