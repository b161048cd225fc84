//! What the source does to a flat SRGB card, beside document 01.

use swathecold_compare::plain::{decoded, SRGB};
use swathecold_compare::source::texture;
use swraster::util::srgb_to_linear_scalar;

/// What byte is left of a flat card after so many reductions.
fn left(byte: u32, reductions: u32) -> u32 {
    let mut card = texture(SRGB, 1 << reductions, 1, vec![byte << 24 | 255; 1 << reductions]);
    card.generate_mipmaps();
    card.data.last().map_or(0, |texel| texel >> 24)
}

/// Prints it.
pub fn print() {
    let bits = |byte: u32| srgb_to_linear_scalar(byte as f32 / 255.0).to_bits() as i64 - decoded(byte).to_bits() as i64;
    let off: Vec<i64> = (0..256).map(bits).filter(|places| *places != 0).collect();
    let most = off.iter().map(|places| places.abs()).max().unwrap_or(0);
    println!(
        "The source's decode is not T(k) for {} of 256 bytes, by at most {most} places.",
        off.len()
    );
    let falls: Vec<u32> = (0..256).filter(|byte| left(*byte, 1) != *byte).collect();
    println!(
        "One reduction of a flat card changes {} of 256 bytes: {falls:?}",
        falls.len()
    );
    let smallest = falls.first().map_or(0, |byte| *byte);
    println!(
        "The smallest: two texels side by side of byte {smallest} reduce to {}.",
        left(smallest, 1)
    );
    for byte in [255, 127, 63] {
        println!("12 reductions of a flat card of {byte} leave {}.", left(byte, 12));
    }
    println!("By document 01 all 256 bytes stay.");
}
