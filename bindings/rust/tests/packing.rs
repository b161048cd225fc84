//! How channels are packed: what the nearest packing moves and what it leaves, that a picture keeps its packing, and the refusals.

use swathecold::*;

const KINDS: [TextureType; 5] =
    [TextureType::SRGB, TextureType::Normal, TextureType::MetallicRoughness, TextureType::Cubemap, TextureType::Linear];
const BOTH: [Packing; 2] = [Packing::Truncating, Packing::Nearest];

/// Texels without a pattern.
fn grain(count: usize) -> Vec<u32> {
    (0..count as u32).map(|i| (i ^ i >> 3).wrapping_mul(2654435761).rotate_left(9).wrapping_mul(2246822519)).collect()
}

fn faces(kind: TextureType) -> usize {
    if kind == TextureType::Cubemap {
        6
    } else {
        1
    }
}

fn picture(kind: TextureType, width: u32, height: u32, packing: Packing) -> Picture {
    let level0 = grain(faces(kind) * width as usize * height as usize);
    Picture::with_packing(kind, width, height, packing, &level0).expect("this picture is good")
}

/// Level 1 of a square of four texels.
fn reduced(kind: TextureType, packing: Packing, square: [u32; 4]) -> u32 {
    let level0 = square.repeat(faces(kind));
    Picture::with_packing(kind, 2, 2, packing, &level0).unwrap().level(1).unwrap()[0]
}

/// The same with a byte of each texel in all four channels: the four bytes that come out.
fn packed(kind: TextureType, packing: Packing, square: [u8; 4]) -> [u8; 4] {
    reduced(kind, packing, square.map(|byte| u32::from(byte) * 0x01010101)).to_be_bytes()
}

/// Squares of bytes: every sum's most even one, the ends of the range, and some without a pattern.
fn squares() -> Vec<[u8; 4]> {
    let even = (0..=1020u32).map(|sum| [0, 1, 2, 3].map(|n| ((sum + n) / 4) as u8));
    let ends = (0..16u8).map(|bits| [0, 1, 2, 3].map(|n| 255 * (bits >> n & 1)));
    even.chain(ends).chain(grain(4000).into_iter().map(u32::to_be_bytes)).collect()
}

#[test]
fn the_papers_items_are_rounded() {
    let pair = |kind, packing, left, right| {
        let picture = Picture::with_packing(kind, 2, 1, packing, &[left, right]).unwrap();
        picture.level(1).unwrap()[0]
    };
    for (kind, left, right, expected) in [
        (TextureType::Linear, 0x00FF00FF, 0xFF0000FF, [0x7F7F00FF, 0x808000FF]),
        (TextureType::Normal, 0x01FF80FF, 0x01FF80FF, [0x00FF80FF, 0x01FF80FF]),
        (TextureType::MetallicRoughness, 0x11FF0022, 0x3300FF44, [0x11B47F22, 0x11B48022]),
        (TextureType::SRGB, 0xFF0000FF, 0x000000FF, [0xBB0000FF, 0xBB0000FF]),
    ] {
        assert_eq!(BOTH.map(|packing| pair(kind, packing, left, right)), expected, "{kind:?}");
    }
}

#[test]
fn a_mean_is_the_sums_quarter_rounded() {
    for square in squares() {
        let sum: u32 = square.iter().map(|byte| u32::from(*byte)).sum();
        for kind in [TextureType::Linear, TextureType::Cubemap] {
            assert_eq!(packed(kind, Packing::Nearest, square), [((sum + 2) / 4) as u8; 4], "{kind:?} {square:?}");
        }
    }
}

#[test]
fn no_channel_leaves_its_four() {
    for square in squares() {
        let (least, greatest) = (square.iter().min().unwrap(), square.iter().max().unwrap());
        for kind in KINDS {
            let found = packed(kind, Packing::Nearest, square);
            assert!(found.iter().all(|byte| least <= byte && byte <= greatest), "{kind:?} {square:?}: {found:?}");
        }
    }
}

#[test]
fn a_flat_picture_stays_flat() {
    for kind in KINDS {
        for byte in 0..=255 {
            assert_eq!(packed(kind, Packing::Nearest, [byte; 4]), [byte; 4], "{kind:?} {byte}");
        }
    }
}

/// The product with 255 is 0.49999997 here: one half added to it as an f32 would be 1.
#[test]
fn a_product_just_below_a_half_is_packed_down() {
    for square in [[0, 0, 0, 2], [0, 0, 2, 0], [0, 1, 1, 0], [0, 2, 0, 0], [1, 0, 1, 0], [1, 1, 0, 0], [2, 0, 0, 0]] {
        assert_eq!(packed(TextureType::Normal, Packing::Nearest, square), [0; 4], "{square:?}");
    }
}

#[test]
fn of_srgb_only_alpha_moves() {
    let mut moved = 0;
    for square in grain(8000).chunks_exact(4) {
        let square = [square[0], square[1], square[2], square[3]];
        let [truncated, rounded] = BOTH.map(|packing| reduced(TextureType::SRGB, packing, square));
        assert_eq!(truncated >> 8, rounded >> 8, "{square:08X?}");
        assert_eq!(rounded & 0xFF, reduced(TextureType::Linear, Packing::Nearest, square) & 0xFF, "{square:08X?}");
        moved += usize::from(truncated != rounded);
    }
    assert!(moved > 500, "alphas that move: {moved}");
}

#[test]
fn of_metallic_roughness_red_and_alpha_are_the_first_texels() {
    let mut moved = 0;
    for square in grain(8000).chunks_exact(4) {
        let square = [square[0], square[1], square[2], square[3]];
        let [truncated, rounded] = BOTH.map(|packing| reduced(TextureType::MetallicRoughness, packing, square));
        assert_eq!(rounded & 0xFF0000FF, square[0] & 0xFF0000FF, "{square:08X?}");
        assert_eq!(rounded & 0xFF00, reduced(TextureType::Linear, Packing::Nearest, square) & 0xFF00, "{square:08X?}");
        let (before, now) = (truncated >> 16 & 0xFF, rounded >> 16 & 0xFF);
        assert!(now == before || now == before + 1, "{square:08X?}: a root {before}, {now}");
        moved += usize::from(now != before);
    }
    assert!(moved > 500, "roots that move: {moved}");
}

#[test]
fn a_picture_truncates_where_nothing_is_named() {
    assert_eq!(BOTH.map(u32::from), [0, 1]);
    assert_eq!(Packing::default(), Packing::Truncating);
    for kind in KINDS {
        let named = picture(kind, 21, 13, Packing::Truncating);
        assert_eq!(Picture::new(kind, 21, 13, &named.texels()[..faces(kind) * 21 * 13]).unwrap(), named);
        assert_eq!(named.packing(), Packing::Truncating);
        assert_ne!(picture(kind, 21, 13, Packing::Nearest).texels(), named.texels(), "{kind:?}");
    }
}

#[test]
fn reopening_composes_by_either_packing() {
    for (kind, packing) in KINDS.iter().flat_map(|kind| BOTH.map(|packing| (*kind, packing))) {
        let whole = picture(kind, 21, 13, packing);
        for a in 0..=whole.max_mip_level() {
            let again = whole.reopen(a).unwrap();
            let start = whole.level_sizes(a).unwrap().start;
            assert_eq!(again.texels(), &whole.texels()[start..], "{kind:?}, {packing:?}, {a} reductions");
            assert_eq!((again.packing(), again.reductions()), (packing, a));
            for b in 0..=again.max_mip_level() {
                assert_eq!(again.level(b), whole.level(a + b), "{kind:?}, {packing:?}, {a} and {b} reductions");
                let twice = again.reopen(b).unwrap();
                assert_eq!(twice, whole.reopen(a + b).unwrap(), "{kind:?}, {packing:?}, {a} and {b} reductions");
            }
        }
    }
}

#[test]
fn a_cut_and_the_picture_of_ranges_keep_the_packing() {
    let whole = picture(TextureType::Normal, 64, 32, Packing::Nearest);
    let part = whole.cut(Cut { order: 3, x: 16, y: 8, width: 24, height: 16 }).unwrap();
    assert_eq!(part.packing(), Packing::Nearest);
    let (from, sizes) = (whole.level(3).unwrap(), whole.level_sizes(3).unwrap());
    let matching: Vec<u32> = (1..3).flat_map(|y| from[y * sizes.width as usize + 2..][..3].to_vec()).collect();
    assert_eq!(part.level(3).unwrap(), matching);

    let mut ranges = whole.reopen(1).unwrap().ranges().unwrap();
    assert_eq!(ranges.picture().unwrap(), whole.reopen(1).unwrap());
    ranges.replace(3, 2, 0x01020304).unwrap();
    let mended = ranges.picture().unwrap();
    assert_eq!((mended.packing(), mended.reductions()), (Packing::Nearest, 1));
    let afresh = Picture::with_packing(TextureType::Normal, 32, 16, Packing::Nearest, ranges.level0()).unwrap();
    assert_eq!(mended.texels(), afresh.texels());
}

/// What can be wrong with a call, in the order in which it is refused: kind, side, chain, mode.
const FAULTS: [u32; 4] = [1, 2, 3, 15];

#[test]
fn each_refusal_comes_before_each_later_one_and_changes_nothing() {
    for (faults, unknown) in (0..1u32 << FAULTS.len()).flat_map(|f| [2, 3, 255, 1 << 31, u32::MAX].map(|mode| (f, mode))) {
        let [kind, side, short, mode] = [0, 1, 2, 3].map(|n| faults >> n & 1);
        let (width, chain) = (4 + side * 4093, 7);
        let before = grain(chain + 4);
        for known in [0, 1] {
            let (mut texels, mode) = (before.clone(), if mode == 1 { unknown } else { known });
            // a part of a longer buffer is lent: what lies past it stays too
            let lent = &mut texels[..chain - short as usize];
            let filled = generate_mipmaps(4 + kind, width, 1, mode, lent);
            let first = FAULTS.get(faults.trailing_zeros() as usize).copied();
            assert_eq!(filled.err().map(Refusal::number), first, "faults {faults:04b}, mode {mode}");
            assert_eq!(texels == before, filled.is_err(), "faults {faults:04b}, mode {mode}");
            assert_eq!(texels[chain..], before[chain..], "faults {faults:04b}, mode {mode}");
        }
    }
}
