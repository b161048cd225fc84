//! What the rules of packing come to in nearest mode, tried on squares of four bytes.

use super::reduce::reduced;
use super::*;
use crate::cases::squares::{of_ends, of_every_sum, of_roots, Square, JUST_BELOW_A_HALF};
use crate::random::{ulps, Random};

type D = Document01;

/// Squares drawn beside those that are aimed.
const DRAWN: usize = 1_000_000;

/// Squares about every half and root, at the ends, drawn, and every pair of bytes in four orders.
fn squares() -> Vec<Square> {
    let mut random = Random::of(1, "laws");
    let mut squares = of_every_sum(&mut random);
    squares.extend(of_roots(&mut random));
    squares.extend(of_ends());
    squares.extend((0..DRAWN).map(|_| (random.next() as u32).to_be_bytes()));
    for (a, b) in (0..=255).flat_map(|a| (0..=255).map(move |b| (a, b))) {
        squares.extend([[a, b, a, b], [a, b, b, b], [a, a, a, b], [a, b, b, a]]);
    }
    squares
}

/// The bytes of a square reduced, when every channel has it.
fn packed(kind: u32, mode: u32, square: Square) -> [u8; 4] {
    reduced::<D>(kind, mode, square.map(|byte| byte as u32 * 0x0101_0101)).to_be_bytes()
}

#[test]
fn a_mean_is_the_sums_quarter_rounded() {
    for square in squares() {
        let sum: u32 = square.iter().map(|byte| *byte as u32).sum();
        let expected = ((sum + 2) / 4) as u8;
        assert_eq!(packed(LINEAR, NEAREST, square), [expected; 4], "{square:?}");
        assert_eq!(packed(SRGB, NEAREST, square)[3], expected, "{square:?}");
        assert_eq!(packed(METALLIC_ROUGHNESS, NEAREST, square)[2], expected, "{square:?}");
    }
}

#[test]
fn no_channel_leaves_its_four() {
    for square in squares() {
        let (least, most) = (square.iter().min().unwrap(), square.iter().max().unwrap());
        for kind in [SRGB, NORMAL, METALLIC_ROUGHNESS, LINEAR] {
            let found = packed(kind, NEAREST, square);
            let inside = found.iter().all(|byte| least <= byte && byte <= most);
            assert!(inside, "kind {kind}, {square:?}: {found:?}");
        }
    }
}

#[test]
fn a_flat_square_keeps_its_byte() {
    for byte in 0..=255 {
        for kind in 0..=4 {
            assert_eq!(packed(kind, NEAREST, [byte; 4]), [byte; 4], "kind {kind}");
        }
    }
}

/// The seven are those for which a half added in f32 gives 1, of all squares with a sum near theirs.
#[test]
fn seven_normal_products_are_just_below_a_half() {
    let mut found = Vec::new();
    for square in (0..7u32.pow(4)).map(|n| [n / 343, n / 49 % 7, n / 7 % 7, n % 7].map(|byte| byte as u8)) {
        let product = D::normal(square.map(|byte| D::unpack(byte as u32))) * 255.0;
        if (product + 0.5) as u32 != D::rounded(product) {
            assert_eq!(product, ulps(0.5, -1));
            found.push(square);
        }
    }
    assert_eq!(found, JUST_BELOW_A_HALF);
    assert!(found.iter().all(|square| packed(NORMAL, NEAREST, *square) == [0; 4]));
}

/// Beside every half, and where p + 1/2 is no f64: the same as in f64, whose sums are exact from 2^-29 up and below 1 under that.
#[test]
fn rounding_is_exact() {
    let halves = (0..=255).flat_map(|k| (-3..=3).map(move |places| ulps(k as f32 + 0.5, places)));
    let small = (0..160).map(|power| f32::powi(0.5, power));
    for product in halves.chain(small).chain([0.0, 255.0, f32::from_bits(1)]) {
        assert_eq!(
            D::rounded(product),
            (product as f64 + 0.5).floor() as u32,
            "{product:e}"
        );
    }
}
