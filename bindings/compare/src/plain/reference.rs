//! The twelve reference items of document 01, and what document 02 makes of three of them.

use super::*;

type D = Document01;

/// Level m as (width, height, start).
fn level(kind: u32, width: u32, height: u32, m: u32) -> (u64, u64, u64) {
    let [start, w, h, _] = level_sizes::<D>(kind, width, height, m).unwrap();
    (w, h, start)
}

/// The chain's texel count.
fn texels(kind: u32, width: u32, height: u32) -> u64 {
    level_sizes::<D>(kind, width, height, 0).unwrap()[3]
}

/// Two texels side by side, reduced once.
fn pair(kind: u32, mode: u32, left: u32, right: u32) -> u32 {
    let mut buffer = [left, right, 0, 0x5A5A_5A5A];
    assert_eq!(generate_mipmaps::<D>(kind, 2, 1, mode, &mut buffer), Ok(3));
    assert_eq!([buffer[0], buffer[1], buffer[3]], [left, right, 0x5A5A_5A5A]);
    buffer[2]
}

#[test]
fn item_1_five_by_three() {
    assert_eq!(level(LINEAR, 5, 3, 0), (5, 3, 0));
    assert_eq!(level(LINEAR, 5, 3, 1), (2, 1, 15));
    assert_eq!(level(LINEAR, 5, 3, 2), (1, 1, 17));
    assert_eq!(texels(LINEAR, 5, 3), 18);
    assert_eq!(level_sizes::<D>(LINEAR, 5, 3, 3), Err(6));
    assert_eq!(level_sizes::<D>(LINEAR, 1, 1, 0), Ok([0, 1, 1, 1]));
    assert_eq!(level_sizes::<D>(LINEAR, 1, 1, 1), Err(6));
}

#[test]
fn item_2_the_third_column_takes_no_part() {
    assert_eq!(level(LINEAR, 3, 1, 0), (3, 1, 0));
    assert_eq!(level(LINEAR, 3, 1, 1), (1, 1, 3));
    assert_eq!(texels(LINEAR, 3, 1), 4);
    let reduced = |third: u32| {
        let mut buffer = [0x10203040, 0x30405060, third, 0];
        assert_eq!(generate_mipmaps::<D>(LINEAR, 3, 1, TRUNCATING, &mut buffer), Ok(4));
        buffer[3]
    };
    assert_eq!(reduced(0), reduced(0xFFFF_FFFF));
}

#[test]
fn item_3_the_longest_side() {
    assert_eq!(level(LINEAR, 4096, 1, 12), (1, 1, 8190));
    assert_eq!(level_sizes::<D>(LINEAR, 4096, 1, 13), Err(6));
    assert_eq!(texels(LINEAR, 4096, 1), 8191);
    assert_eq!(level_sizes::<D>(LINEAR, 4097, 1, 0), Err(2));
}

#[test]
fn item_4_a_cubemap() {
    assert_eq!(level(CUBEMAP, 2, 2, 0), (2, 2, 0));
    assert_eq!(level(CUBEMAP, 2, 2, 1), (1, 1, 24));
    assert_eq!(texels(CUBEMAP, 2, 2), 30);
}

#[test]
fn items_5_to_8_one_reduction_of_each_kind() {
    let pairs = |mode: u32| {
        [
            pair(LINEAR, mode, 0x00FF00FF, 0xFF0000FF),
            pair(NORMAL, mode, 0x01FF80FF, 0x01FF80FF),
            pair(METALLIC_ROUGHNESS, mode, 0x11FF0022, 0x3300FF44),
            pair(SRGB, mode, 0xFF0000FF, 0x000000FF),
        ]
    };
    assert_eq!(pairs(TRUNCATING), [0x7F7F00FF, 0x00FF80FF, 0x11B47F22, 0xBB0000FF]);
    // T-06: in nearest mode items 5, 6 and 7 become these.
    assert_eq!(pairs(NEAREST), [0x808000FF, 0x01FF80FF, 0x11B48022, 0xBB0000FF]);
}

#[test]
fn item_9_the_three_wraps() {
    let places = |wrap| [-1, 4, 5, 8].map(|t| wrap::wrapped::<D>(wrap, t, 4));
    assert_eq!(places(Wrap::Repeat), [3, 0, 1, 0]);
    assert_eq!(places(Wrap::ClampToEdge), [0, 3, 3, 3]);
    assert_eq!(places(Wrap::MirroredRepeat), [1, 3, 3, 0]);
}

#[test]
fn item_10_levels_of_steps() {
    let s = 1.0 / 16.0;
    assert_eq!(compute_mip_level::<D>(64, 64, &[s, 0.0, 0.0, s]), Ok(2));
    assert_eq!(compute_mip_level::<D>(64, 64, &[s, 0.0, 0.0, 0.0]), Ok(1));
    assert_eq!(compute_mip_level::<D>(64, 64, &[0.0; 4]), Ok(0));
    assert_eq!(compute_mip_level::<D>(64, 64, &[f32::MAX; 4]), Ok(6));
}

#[test]
fn item_11_directions() {
    let of = |d: [f32; 3]| {
        let [x, y, z] = d.map(|c| [c; 4]);
        cubemap_uv_from_normal::<D>(&x, &y, &z).map(|(uv, faces)| (faces[3], uv[3], uv[7]))
    };
    assert_eq!(of([1.0, 1.0, 1.0]), Ok((0, 0.0, 0.0)));
    assert_eq!(of([0.0, 2.0, 1.0]), Ok((2, 0.5, 0.75)));
    assert_eq!(of([-0.0, 0.0, -1.0]), Ok((5, 0.5, 0.5)));
    assert_eq!(of([0.0, 0.0, 0.0]), Err(7));
}

#[test]
fn item_12_the_largest_coordinate() {
    let lent = Lent {
        kind: LINEAR,
        width: 1,
        height: 1,
        texels: &[0x336699CC],
    };
    let at = |u: f32| sample4_alpha::<D>(&lent, [10497, 10497], &[u; 4], &[0.0; 4], &[0.0; 4]);
    assert_eq!(at(2048.0), Ok([0.8; 4]));
    assert_eq!(at(-2048.0), Ok([0.8; 4]));
    assert_eq!(at(f32::from_bits(2048f32.to_bits() + 1)), Err(5));
}
