//! What each mode of packing does to the mean of a picture, level by level.

use swathecold_compare::plain::{
    chain_texels, generate_mipmaps, level_sizes, Document01, LINEAR, NEAREST, NORMAL, TRUNCATING,
};
use swathecold_compare::random::Random;

/// The side of the pictures.
const SIDE: u32 = 1024;

/// The levels that still have many texels.
const LEVELS: u32 = 6;

/// For each level the mean of all its bytes.
fn means(kind: u32, mode: u32, level_0: &[u32]) -> Vec<f64> {
    let mut texels = level_0.to_vec();
    texels.resize(chain_texels::<Document01>(kind, SIDE, SIDE) as usize, 0);
    generate_mipmaps::<Document01>(kind, SIDE, SIDE, mode, &mut texels).expect("a picture that is taken");
    let mean = |m: u32| {
        let [start, side, ..] = level_sizes::<Document01>(kind, SIDE, SIDE, m).expect("a level");
        let level = &texels[start as usize..][..(side * side) as usize];
        let sum: u64 = level.iter().flat_map(|texel| texel.to_be_bytes()).map(u64::from).sum();
        sum as f64 / (4 * level.len()) as f64
    };
    (0..=LEVELS).map(mean).collect()
}

/// Prints how far each level's mean is from that of level 0.
pub fn print() {
    let mut random = Random::of(1, "packing");
    let level_0: Vec<u32> = (0..SIDE * SIDE).map(|_| random.next() as u32).collect();
    println!("How far a level's mean is from level 0's, in parts of a byte's 255, {SIDE} square without a pattern.\n");
    println!("| level | Linear, truncating | nearest | Normal, truncating | nearest |");
    println!("|--:|--:|--:|--:|--:|");
    let columns = [LINEAR, NORMAL].map(|kind| [TRUNCATING, NEAREST].map(|mode| means(kind, mode, &level_0)));
    for m in 1..=LEVELS as usize {
        let far = columns
            .iter()
            .flatten()
            .map(|means| format!("{:+.2}", means[m] - means[0]));
        println!("| {m} | {} |", far.collect::<Vec<_>>().join(" | "));
    }
}
