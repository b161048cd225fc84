//! Reduces a picture, reopens a level and shows that nothing is reduced twice: what a station does when it saves and opens.

use swathecold::{Picture, Refusal, TextureType};

fn main() -> Result<(), Refusal> {
    let grain: Vec<u32> = (0..16 * 16u32).map(|i| (i.wrapping_mul(2654435761) >> 24) * 0x01010100 | 0xFF).collect();
    let picture = Picture::new(TextureType::SRGB, 16, 16, &grain)?;
    for level in 0..=picture.max_mip_level() {
        let sizes = picture.level_sizes(level)?;
        let first = picture.level(level)?[0];
        println!("level {level}: {} by {}, first texel {first:08X}", sizes.width, sizes.height);
    }
    let saved = picture.reopen(2)?;
    println!(
        "reopened after {} reductions, {:?} as before; its level 1 is level 3: {}",
        saved.reductions(),
        saved.packing(),
        saved.level(1)? == picture.level(3)?
    );
    Ok(())
}
