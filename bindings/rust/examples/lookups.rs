//! Looks four pixels up at once, as the station's rasteriser does, and takes a refusal as a value.

use swathecold::{Picture, Refusal, Sampler, TextureType, Vec3x4, WrapMode};

fn main() -> Result<(), Refusal> {
    let card = Picture::new(TextureType::Linear, 2, 2, &[0x000000FF, 0x404040FF, 0x808080FF, 0xFFFFFFFF])?;
    let sampler = Sampler::new(WrapMode::Repeat, WrapMode::MirroredRepeat);
    let (u, v, steps) = ([0.25, 0.75, 1.25, -0.25], [0.25, 0.25, 0.75, 0.75], [0.0; 4]);
    println!("nearest red: {:?}", card.sample4_rgb(sampler, u, v, steps)?.x);
    println!("bilinear red: {:?}", card.sample_bilinear_rgb(sampler, u, v, 0, [0; 4])?.x);
    match card.sample4_rgb(Sampler { wrap_s: 1, wrap_t: 0 }, u, v, steps) {
        Ok(colours) => println!("{colours:?}"),
        Err(refused) => println!("{refused}"),
    }
    let studio = Picture::new(TextureType::Cubemap, 1, 1, &[0xFF0000FF, 0x00FF00FF, 0x0000FFFF, 0, 0xFFFFFFFF, 0x808080FF])?;
    let normal = Vec3x4 { x: [1.0, -1.0, 0.0, 0.0], y: [0.0, 0.0, 1.0, 0.0], z: [0.0, 0.0, 0.0, 1.0] };
    println!("studio: {:?}", studio.sample_cubemap_rgb(normal, [0; 4])?);
    Ok(())
}
