//! Opens a TXR picture of version 1, for the examples.

use std::error::Error;
use std::fs;

use swathecold::{Picture, TextureType};

const KINDS: [TextureType; 5] =
    [TextureType::SRGB, TextureType::Normal, TextureType::MetallicRoughness, TextureType::Cubemap, TextureType::Linear];

pub fn opened(path: &str) -> Result<Picture, Box<dyn Error>> {
    let file = fs::read(path)?;
    let [b'T', b'X', b'R', 1, 0, kind, w0, w1, h0, h1, pixels @ ..] = file.as_slice() else {
        return Err("this is no TXR picture of version 1".into());
    };
    let kind = KINDS.get(usize::from(*kind)).ok_or("the picture's kind is unknown")?;
    let side = |low: &u8, high: &u8| u32::from(u16::from_le_bytes([*low, *high]));
    let texels: Vec<u32> = pixels.chunks_exact(4).map(|p| u32::from_be_bytes([p[0], p[1], p[2], p[3]])).collect();
    Ok(Picture::new(*kind, side(w0, w1), side(h0, h1), &texels)?)
}
