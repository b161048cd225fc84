//! Checks a chain that another tool made. `check_chain KIND WIDTH HEIGHT PACKING FILE`: kind and packing are the unit's numbers, 0 SRGB,
//! 1 Normal, 2 MetallicRoughness, 3 Cubemap, 4 Linear, and 0 truncating, 1 nearest; the file holds the texels of all levels, 4 bytes
//! each, red first. Prints the verdict, and of a chain that does not follow also those on its levels. Ends with status 0 where the chain
//! follows, 1 where it does not, 2 where it cannot be judged. Without arguments it judges a chain of its own, and the same with one texel
//! damaged.

use std::error::Error;
use std::process::ExitCode;
use std::{env, fs};

use swathecold::{check_chain, check_level, Packing, Picture, Refusal, TextureType, Verdict};

const USAGE: &str = "give KIND WIDTH HEIGHT PACKING FILE, the first four as numbers";

/// Prints the verdict on a chain, and those on its levels where it does not follow.
fn judge(kind: u32, width: u32, height: u32, packing: u32, texels: &[u32]) -> Result<Verdict, Refusal> {
    let verdict = check_chain(kind, width, height, packing, texels)?;
    println!("{width} by {height}: {verdict}");
    if !verdict.follows() {
        for level in 0..=width.max(height).ilog2() {
            println!("level {level}: {}", check_level(kind, width, height, packing, texels, level)?);
        }
    }
    Ok(verdict)
}

/// The texels of a file.
fn read(path: &str) -> Result<Vec<u32>, Box<dyn Error>> {
    let bytes = fs::read(path).map_err(|why| format!("{path}: {why}"))?;
    let texels = bytes.chunks_exact(4);
    if !texels.remainder().is_empty() {
        return Err(format!("{path}: {} bytes are no whole number of texels", bytes.len()).into());
    }
    Ok(texels.map(|four| u32::from_be_bytes([four[0], four[1], four[2], four[3]])).collect())
}

/// The verdict on the chain that the arguments name.
fn named(words: &[String]) -> Result<Verdict, Box<dyn Error>> {
    let [kind, width, height, packing, path] = words else { return Err(USAGE.into()) };
    let number = |word: &String| word.parse().map_err(|_| USAGE);
    let texels = read(path)?;
    Ok(judge(number(kind)?, number(width)?, number(height)?, number(packing)?, &texels)?)
}

/// A grey with a grain: as the unit makes it, and with a texel of level 1 damaged.
fn demonstrate() -> Result<(), Refusal> {
    let grain: Vec<u32> = (0..16 * 16u32).map(|i| (i.wrapping_mul(2654435761) >> 28) * 0x01010100 + 0x707070FF).collect();
    let mut chain = Picture::new(TextureType::SRGB, 16, 16, &grain)?.texels().to_vec();
    for damage in [0, 0xFF000000] {
        chain[16 * 16 + 3 * 8 + 5] ^= damage;
        judge(TextureType::SRGB.into(), 16, 16, Packing::Truncating.into(), &chain)?;
    }
    Ok(())
}

fn status() -> Result<u8, Box<dyn Error>> {
    let words: Vec<String> = env::args().skip(1).collect();
    if words.is_empty() {
        demonstrate()?;
        return Ok(0);
    }
    Ok(u8::from(!named(&words)?.follows()))
}

fn main() -> ExitCode {
    let status = status().unwrap_or_else(|why| {
        eprintln!("check_chain: {why}");
        2
    });
    ExitCode::from(status)
}
