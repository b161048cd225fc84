//! Texels for chains, cuts and crosses.

use crate::random::Random;

/// So many texels of one style: any bytes, few values, nearly flat, or flat.
pub fn drawn(random: &mut Random, count: usize) -> Vec<u32> {
    match random.below(6) {
        0 => {
            let texel = random.next() as u32;
            vec![texel; count]
        }
        1 => {
            let base = random.next() as u32 & 0xFCFC_FCFC;
            (0..count).map(|_| base | random.next() as u32 & 0x0303_0303).collect()
        }
        2 => (0..count).map(|_| few_values(random)).collect(),
        _ => (0..count).map(|_| random.next() as u32).collect(),
    }
}

/// A texel whose bytes are at the ends and in the middle of the range.
fn few_values(random: &mut Random) -> u32 {
    let bytes: [u8; 4] = std::array::from_fn(|_| random.pick(&[0, 1, 2, 10, 11, 63, 64, 127, 128, 254, 255]));
    u32::from_be_bytes(bytes)
}

/// So many bytes.
pub fn bytes(random: &mut Random, count: usize) -> Vec<u8> {
    (0..count).map(|_| random.next() as u8).collect()
}
