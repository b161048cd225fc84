//! T-06's records, behind all others: chains in nearest mode, and modes that are unknown.

use super::cases::{accepted_call, items, refused_call, List};
use crate::cases::squares::{even, of_every_sum, of_roots, Square, JUST_BELOW_A_HALF};
use crate::plain::{LINEAR, METALLIC_ROUGHNESS, NEAREST, NORMAL, SRGB};

/// Accepted chains of drawn pictures.
const ACCEPTED: usize = 60;

/// The number of the chain call.
const CHAIN: usize = 1;

/// Adds them: the items, squares about halves, drawn pictures, and 15 alone and behind each refusal.
pub fn packing(list: &mut List) {
    items(list, NEAREST);
    squares(list);
    for _ in 0..ACCEPTED {
        accepted_call(list, CHAIN, NEAREST);
    }
    for chosen in [[1], [2], [3], [15], [15], [15]] {
        refused_call(list, CHAIN, NEAREST, &chosen);
    }
    for chosen in [[1, 15], [2, 15], [3, 15]] {
        refused_call(list, CHAIN, NEAREST, &chosen);
    }
}

/// Squares whose mean is k and a half for every k, the seven of Normal, and for each kind some about its halves.
fn squares(list: &mut List) {
    for first in (0..252).step_by(4).chain([251]) {
        let halves = [0, 1, 2, 3].map(|channel| even(4 * (first + channel) + 2));
        add(list, LINEAR, halves);
        if first % 16 == 0 {
            add(list, SRGB, halves);
        }
    }
    for square in JUST_BELOW_A_HALF {
        add(list, NORMAL, [square; 4]);
    }
    for square in of_every_sum(&mut list.random).into_iter().step_by(257) {
        add(list, NORMAL, [square; 4]);
    }
    for square in of_roots(&mut list.random).into_iter().step_by(257) {
        add(list, METALLIC_ROUGHNESS, [square; 4]);
    }
}

/// Adds a picture of four texels, a square in each channel.
fn add(list: &mut List, kind: u32, channels: [Square; 4]) {
    let texel = |corner: usize| u32::from_be_bytes(channels.map(|square| square[corner]));
    list.add_chain(kind, 2, 2, NEAREST, &[0, 1, 2, 3].map(texel));
}
