//! The ranges beside a picture's level 0: of each tile, the smallest and the largest value of each channel.

use crate::calls;
use crate::picture::Picture;
use crate::refusal::Refusal;
use crate::types::{Packing, TextureType};

/// The texels along a tile's side.
const TILE: u32 = 16;

/// The bytes of a tile's range.
const RANGE: usize = 8;

/// How many tiles lie along a side.
fn tiles_along(side: u32) -> u32 {
    side.div_ceil(TILE)
}

/// A tile of level 0, 16 by 16 texels or what the right and lower edges leave of it, with its range: red, green, blue, alpha.
#[derive(Clone, Copy, Debug, PartialEq, Eq)]
pub struct Tile {
    /// The place of its first texel.
    pub x: u32,
    pub y: u32,
    /// Its sides in texels.
    pub width: u32,
    pub height: u32,
    /// The smallest value of each channel in it.
    pub smallest: [u8; 4],
    /// The largest.
    pub largest: [u8; 4],
}

impl Tile {
    /// Whether red, green or blue reaches 0 or 255. Alpha says nothing of a finish, and does not count.
    pub fn is_saturated(&self) -> bool {
        self.smallest[..3].contains(&0) || self.largest[..3].contains(&255)
    }
}

/// The ranges of a picture that is no cubemap, beside a copy of its level 0. They own that copy, so they are always those of the
/// texels that they stand beside, and no change of a texel reaches the picture that they came from.
///
/// ```
/// use swathecold::{Picture, TextureType};
/// // a grey sheet with one texel that is too bright
/// let mut sheet = vec![0x808080FF; 40 * 20];
/// sheet[18 * 40 + 33] = 0xFFF0E0FF;
/// let mut ranges = Picture::new(TextureType::SRGB, 40, 20, &sheet)?.ranges()?;
/// let found: Vec<_> = ranges.saturated().collect();
/// assert_eq!(found, [ranges.tile(33, 18)?]);
/// assert_eq!((found[0].x, found[0].y, found[0].width, found[0].height), (32, 16, 8, 4));
/// assert_eq!((found[0].smallest, found[0].largest), ([0x80, 0x80, 0x80, 0xFF], [0xFF, 0xF0, 0xE0, 0xFF]));
///
/// // mended; the levels are made of the mended texels by `picture`, and by nothing else
/// ranges.replace(33, 18, 0x808080FF)?;
/// assert_eq!(ranges.saturated().count(), 0);
/// assert_eq!(ranges.picture()?.level(5)?, [0x808080FF]);
/// # Ok::<(), swathecold::Refusal>(())
/// ```
#[derive(Clone, Debug, PartialEq, Eq)]
pub struct Ranges {
    texture_type: TextureType,
    width: u32,
    height: u32,
    packing: Packing,
    reductions: u32,
    level0: Vec<u32>,
    bytes: Vec<u8>,
}

impl Ranges {
    /// Refusal: 8 for a cubemap.
    pub(crate) fn of(picture: &Picture) -> Result<Ranges, Refusal> {
        let (texture_type, width, height) = (picture.texture_type(), picture.width(), picture.height());
        let mut bytes = vec![0; (tiles_along(width) * tiles_along(height)) as usize * RANGE];
        calls::build_ranges(texture_type, width, height, picture.texels(), &mut bytes)?;
        let (packing, reductions, level0) = (picture.packing(), picture.reductions(), picture.level(0)?.to_vec());
        Ok(Ranges { texture_type, width, height, packing, reductions, level0, bytes })
    }

    /// Replaces the texel at (x, y) and brings its tile's range up to date. Levels are made of the texels as they then are by
    /// [`Ranges::picture`]. Refusal: 14.
    pub fn replace(&mut self, x: u32, y: u32, texel: u32) -> Result<(), Refusal> {
        let (kind, width, height) = (self.texture_type, self.width, self.height);
        calls::replace_texel(kind, width, height, &mut self.level0, &mut self.bytes, x, y, texel)
    }

    /// The picture whose level 0 this is, all its levels made afresh: what to ask for once texels were replaced, since a
    /// replacement changes level 0 alone. It was reduced as often as the picture that the ranges came from, and by the same packing.
    /// Nothing is refused: kind and sides are that picture's.
    pub fn picture(&self) -> Result<Picture, Refusal> {
        Picture::reduced(self.reductions, self.texture_type, self.width, self.height, self.packing, &self.level0)
    }

    /// The tile that the texel at (x, y) lies in. Refusal: 14.
    pub fn tile(&self, x: u32, y: u32) -> Result<Tile, Refusal> {
        if x >= self.width || y >= self.height {
            return Err(Refusal::OUTSIDE);
        }
        Ok(self.tile_in(x / TILE, y / TILE))
    }

    /// Every tile, row by row.
    pub fn tiles(&self) -> impl Iterator<Item = Tile> + '_ {
        let (columns, rows) = (tiles_along(self.width), tiles_along(self.height));
        (0..rows * columns).map(move |n| self.tile_in(n % columns, n / columns))
    }

    /// The tiles in which a colour channel reaches 0 or 255, row by row.
    pub fn saturated(&self) -> impl Iterator<Item = Tile> + '_ {
        self.tiles().filter(Tile::is_saturated)
    }

    fn tile_in(&self, column: u32, row: u32) -> Tile {
        let (x, y) = (column * TILE, row * TILE);
        let range = &self.bytes[(row * tiles_along(self.width) + column) as usize * RANGE..][..RANGE];
        Tile {
            x,
            y,
            width: TILE.min(self.width - x),
            height: TILE.min(self.height - y),
            smallest: [range[0], range[2], range[4], range[6]],
            largest: [range[1], range[3], range[5], range[7]],
        }
    }

    pub fn width(&self) -> u32 {
        self.width
    }

    pub fn height(&self) -> u32 {
        self.height
    }

    /// Level 0 as it is, row by row.
    pub fn level0(&self) -> &[u32] {
        &self.level0
    }

    /// The ranges as the unit writes them, eight bytes a tile: see [`crate::build_ranges`].
    pub fn bytes(&self) -> &[u8] {
        &self.bytes
    }
}
