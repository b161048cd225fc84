//! One texel, and the place of one in its level.

use super::rules::Rules;
use super::sizes::{level_start, level_texels};
use super::Lent;

/// A texel is a 32-bit number, red in the top byte, then green, blue, alpha: its four bytes.
pub fn bytes(texel: u32) -> [u32; 4] {
    [texel >> 24, texel >> 16 & 255, texel >> 8 & 255, texel & 255]
}

/// The texel of four bytes.
pub fn texel(bytes: [u32; 4]) -> u32 {
    bytes[0] << 24 | bytes[1] << 16 | bytes[2] << 8 | bytes[3]
}

/// The four channels of a texel.
pub fn channels<R: Rules>(texel: u32) -> [f32; 4] {
    bytes(texel).map(R::unpack)
}

/// One level of a lent chain, as a lookup reads it.
#[derive(Clone, Copy)]
pub struct Level<'a> {
    pub width: u32,
    pub height: u32,
    texels: &'a [u32],
}

/// Level m of a lent chain.
pub fn level<'a, R: Rules>(lent: &Lent<'a>, m: u32) -> Level<'a> {
    let start = level_start::<R>(lent.kind, lent.width, lent.height, m) as usize;
    let length = level_texels::<R>(lent.kind, lent.width, lent.height, m) as usize;
    Level {
        width: R::level_side(lent.width, m),
        height: R::level_side(lent.height, m),
        texels: &lent.texels[start..start + length],
    }
}

/// The texel at a place of a face. Faces and rows follow each other; a place outside its level panics.
pub fn read<R: Rules>(level: &Level, face: u32, x: i64, y: i64) -> [f32; 4] {
    let (width, height) = (level.width as usize, level.height as usize);
    let face = &level.texels[face as usize * width * height..][..width * height];
    let row = &face[y as usize * width..][..width];
    channels::<R>(row[x as usize])
}

/// Four lanes of one texel each as four reds, four greens, four blues.
pub fn by_channel(lanes: [[f32; 3]; 4]) -> [f32; 12] {
    let mut rgb = [0.0; 12];
    for (lane, colour) in lanes.iter().enumerate() {
        for (channel, value) in colour.iter().enumerate() {
            rgb[channel * 4 + lane] = *value;
        }
    }
    rgb
}
