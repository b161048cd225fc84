//! Ranges beside a picture: which texels count for which tile, what a replacement changes and leaves, and each refusal before each
//! later one.

use swathecold::*;

const GREY: u32 = 0x80808080;
const OTHER: u32 = 0x01FE02FD;
const CANARY: u8 = 0xA5;

/// Texels without a pattern.
fn grain(count: usize) -> Vec<u32> {
    (0..count as u32).map(|i| (i ^ i >> 3).wrapping_mul(2654435761).rotate_left(9).wrapping_mul(2246822519)).collect()
}

fn level0(width: u32, height: u32) -> Vec<u32> {
    grain(width as usize * height as usize)
}

/// The eight bytes of the tile that (x, y) lies in.
fn bytes_of(width: u32, x: u32, y: u32) -> std::ops::Range<usize> {
    let first = (y / 16 * width.div_ceil(16) + x / 16) as usize * 8;
    first..first + 8
}

/// The rule read plainly, texel by texel: each widens the range of its own tile.
fn read_plainly(width: u32, height: u32, level0: &[u32]) -> Vec<u8> {
    let mut ranges = [255, 0].repeat(4 * (width.div_ceil(16) * height.div_ceil(16)) as usize);
    for (n, texel) in level0.iter().take((width * height) as usize).enumerate() {
        let range = &mut ranges[bytes_of(width, n as u32 % width, n as u32 / width)];
        for (ends, value) in range.chunks_exact_mut(2).zip(texel.to_be_bytes()) {
            (ends[0], ends[1]) = (ends[0].min(value), ends[1].max(value));
        }
    }
    ranges
}

fn number<T: std::fmt::Debug>(answer: Result<T, Refusal>) -> u32 {
    answer.expect_err("this input is bad").number()
}

#[test]
fn eight_bytes_a_tile_for_sides_around_16_and_the_longest() {
    let around = [1, 15, 16, 17, 33];
    let long = [(4095, 1), (4096, 1), (4096, 17), (1, 4095), (1, 4096), (17, 4096)];
    for (width, height) in around.iter().flat_map(|&w| around.map(|h| (w, h))).chain(long) {
        let texels = level0(width, height);
        let expected = read_plainly(width, height, &texels);
        let mut ranges = vec![CANARY; expected.len() + 16];
        let written = build_ranges(TextureType::Linear, width, height, &texels, &mut ranges).unwrap();
        assert_eq!(written, expected.len(), "{width} by {height}");
        assert_eq!(ranges[..written], expected, "{width} by {height}");
        assert_eq!(ranges[written..], [CANARY; 16], "{width} by {height}: past the ranges");
    }
}

#[test]
fn the_bytes_of_some_sides_counted_by_hand() {
    for (width, height, bytes) in [(4095, 1, 2048), (4096, 1, 2048), (1, 4081, 2048), (1, 4080, 2040), (17, 17, 32), (16, 16, 8)]
    {
        let mut ranges = vec![0; 4096];
        assert_eq!(build_ranges(4u32, width, height, &level0(width, height), &mut ranges), Ok(bytes), "{width} by {height}");
    }
}

#[test]
fn every_kind_but_a_cubemap_has_the_same_ranges() {
    let texels = level0(17, 3);
    for kind in [TextureType::SRGB, TextureType::Normal, TextureType::MetallicRoughness, TextureType::Linear] {
        let ranges = Picture::new(kind, 17, 3, &texels).unwrap().ranges().unwrap();
        assert_eq!(ranges.bytes(), read_plainly(17, 3, &texels), "{kind:?}");
    }
}

#[test]
fn only_level_0_is_read() {
    // behind level 0, where whole tiles would go on, stand the values that widen every range
    let mut texels = vec![GREY; 17 * 2];
    texels.extend([0x00000000, 0xFFFFFFFF].repeat(17 * 7));
    let mut ranges = [0; 16];
    build_ranges(TextureType::Linear, 17, 2, &texels, &mut ranges).unwrap();
    assert_eq!(ranges, [0x80; 16]);
    for x in [0, 16] {
        replace_texel(TextureType::Linear, 17, 2, &mut texels, &mut ranges, x, 1, GREY).unwrap();
        assert_eq!(ranges, [0x80; 16], "({x}, 1)");
    }
}

#[test]
fn each_texel_counts_for_its_own_tile_alone() {
    let (width, height) = (33, 18);
    for (x, y) in (0..height).flat_map(|y| (0..width).map(move |x| (x, y))) {
        let (mut texels, mut replaced, mut ranges) = (vec![GREY; 33 * 18], vec![GREY; 33 * 18], vec![0x80; 48]);
        texels[(y * width + x) as usize] = OTHER;
        let mut expected = vec![0x80; 48];
        expected[bytes_of(width, x, y)].copy_from_slice(&[0x01, 0x80, 0x80, 0xFE, 0x02, 0x80, 0x80, 0xFD]);
        replace_texel(TextureType::SRGB, width, height, &mut replaced, &mut ranges, x, y, OTHER).unwrap();
        assert_eq!((&replaced, &ranges), (&texels, &expected), "replaced at ({x}, {y})");
        build_ranges(TextureType::SRGB, width, height, &texels, &mut ranges).unwrap();
        assert_eq!(ranges, expected, "built with ({x}, {y})");
    }
}

#[test]
fn tiles_go_row_by_row_and_are_smaller_at_the_edges() {
    let texels = level0(33, 18);
    let ranges = Picture::new(TextureType::Linear, 33, 18, &texels).unwrap().ranges().unwrap();
    let tiles: Vec<Tile> = ranges.tiles().collect();
    let places: Vec<_> = tiles.iter().map(|t| (t.x, t.y, t.width, t.height)).collect();
    let expected = [(0, 0, 16, 16), (16, 0, 16, 16), (32, 0, 1, 16), (0, 16, 16, 2), (16, 16, 16, 2), (32, 16, 1, 2)];
    assert_eq!(places, expected);
    for tile in tiles {
        let rows = (tile.y..tile.y + tile.height).map(|y| &texels[(y * 33 + tile.x) as usize..][..tile.width as usize]);
        let values: Vec<[u8; 4]> = rows.flatten().map(|t| t.to_be_bytes()).collect();
        for channel in 0..4 {
            assert_eq!(Some(tile.smallest[channel]), values.iter().map(|v| v[channel]).min());
            assert_eq!(Some(tile.largest[channel]), values.iter().map(|v| v[channel]).max());
        }
        for (x, y) in [(tile.x, tile.y), (tile.x + tile.width - 1, tile.y + tile.height - 1)] {
            assert_eq!(ranges.tile(x, y), Ok(tile), "({x}, {y})");
        }
    }
}

#[test]
fn stale_ranges_and_the_chain_stay_but_for_one_tile_and_one_texel() {
    let (width, height) = (33, 18);
    let total = level_sizes(TextureType::Linear, width, height, 0).unwrap().total;
    let mut chain = level0(width, height);
    chain.resize(total, 0);
    generate_mipmaps(TextureType::Linear, width, height, Packing::Truncating, &mut chain).unwrap();
    for (x, y) in [(0, 0), (15, 15), (16, 15), (32, 0), (0, 16), (32, 17)] {
        let (mut texels, mut ranges) = (chain.clone(), vec![CANARY; 6 * 8 + 3]);
        replace_texel(TextureType::Linear, width, height, &mut texels, &mut ranges, x, y, OTHER).unwrap();
        let mut expected = chain.clone();
        expected[(y * width + x) as usize] = OTHER;
        assert_eq!(texels, expected, "({x}, {y})");
        let mut beside = vec![CANARY; 6 * 8 + 3];
        let tile = bytes_of(width, x, y);
        beside[tile.clone()].copy_from_slice(&read_plainly(width, height, &expected)[tile]);
        assert_eq!(ranges, beside, "({x}, {y})");
    }
}

#[test]
fn a_range_shrinks_when_its_extreme_leaves() {
    let mut texels = vec![GREY; 16 * 16];
    (texels[0], texels[255]) = (0x00FF00FF, 0xFF00FF00);
    let mut ranges = Picture::new(TextureType::Linear, 16, 16, &texels).unwrap().ranges().unwrap();
    assert_eq!(ranges.bytes(), [0, 255, 0, 255, 0, 255, 0, 255]);
    ranges.replace(15, 15, 0x70901020).unwrap();
    assert_eq!(ranges.bytes(), [0x00, 0x80, 0x80, 0xFF, 0x00, 0x80, 0x20, 0xFF]);
    ranges.replace(0, 0, GREY).unwrap();
    assert_eq!(ranges.bytes(), [0x70, 0x80, 0x80, 0x90, 0x10, 0x80, 0x20, 0x80]);
}

#[test]
fn a_series_of_replacements_leaves_the_ranges_built_afresh() {
    let (width, height) = (37, 21);
    let mut texels = level0(width, height);
    let mut ranges = Picture::new(TextureType::Normal, width, height, &texels).unwrap().ranges().unwrap();
    let mut moved = 0;
    for n in grain(600) {
        let (x, y, texel) = (n % width, n / 64 % height, n.wrapping_mul(40503));
        let before = ranges.bytes().to_vec();
        ranges.replace(x, y, texel).unwrap();
        texels[(y * width + x) as usize] = texel;
        assert_eq!(ranges.bytes(), read_plainly(width, height, &texels), "({x}, {y})");
        assert_eq!(ranges.level0(), texels, "({x}, {y})");
        moved += usize::from(ranges.bytes() != before);
    }
    assert!(moved > 50, "a series that moves ranges: {moved}");
    assert_eq!(ranges, ranges.picture().unwrap().ranges().unwrap());
}

/// What can be wrong with a call, in the order in which it is refused: kind, side, level 0, ranges, cubemap, place.
const FAULTS: [u32; 6] = [1, 2, 3, 3, 8, 14];

/// The first of some faults, a bit each.
fn first(faults: u32) -> Option<u32> {
    FAULTS.get(faults.trailing_zeros() as usize).copied()
}

/// Kind, width, height, the lengths of both buffers, and the place, with these faults and no other.
fn with(faults: u32) -> (u32, u32, u32, usize, usize, u32, u32) {
    let [kind, side, texels, ranges, cubemap, outside] = [0, 1, 2, 3, 4, 5].map(|n| faults >> n & 1);
    let (width, height) = (17 + side * 4080, 2);
    let level0 = (1 + 5 * cubemap) * width * height;
    let beside = width.div_ceil(16) * 8;
    (4 + kind - cubemap, width, height, (level0 - texels) as usize, (beside - ranges) as usize, 16 + outside * 4081, 1)
}

#[test]
fn each_refusal_comes_before_each_later_one_and_changes_nothing() {
    // a kind that is unknown is no cubemap: 0b010001 cannot be asked
    for faults in (0..1 << FAULTS.len()).filter(|f| f & 0b010001 != 0b010001) {
        let (kind, width, height, level0, beside, x, y) = with(faults);
        // parts of longer buffers are lent: what lies past them stays too
        let (before, room) = (grain(level0 + 4), vec![CANARY; beside + 4]);
        let (mut texels, mut ranges) = (before.clone(), room.clone());
        let built = build_ranges(kind, width, height, &texels[..level0], &mut ranges[..beside]);
        assert_eq!(built.err().map(Refusal::number), first(faults & 0b011111), "build_ranges, faults {faults:06b}");
        assert_eq!(ranges == room, built.is_err(), "build_ranges, faults {faults:06b}");
        assert_eq!(ranges[beside..], room[beside..], "build_ranges, faults {faults:06b}");

        ranges.clone_from(&room);
        let replaced = replace_texel(kind, width, height, &mut texels[..level0], &mut ranges[..beside], x, y, OTHER);
        assert_eq!(replaced.err().map(Refusal::number), first(faults), "replace_texel, faults {faults:06b}");
        assert_eq!((texels == before, ranges == room), (replaced.is_err(), replaced.is_err()), "faults {faults:06b}");
        assert_eq!((&texels[level0..], &ranges[beside..]), (&before[level0..], &room[beside..]), "faults {faults:06b}");
    }
}

#[test]
fn sides_are_refused_one_by_one() {
    let (mut texels, mut ranges) = (grain(2 * 4097), vec![CANARY; 8 * 257]);
    let (before, room) = (texels.clone(), ranges.clone());
    for (width, height) in [(0, 2), (2, 0), (4097, 2), (2, 4097), (u32::MAX, 2), (2, u32::MAX), (1 << 31, 2), (2, 1 << 31)] {
        assert_eq!(number(build_ranges(4u32, width, height, &texels, &mut ranges)), 2, "{width} by {height}");
        assert_eq!(number(replace_texel(4u32, width, height, &mut texels, &mut ranges, 0, 0, OTHER)), 2, "{width} by {height}");
    }
    assert_eq!((texels, ranges), (before, room));
}

#[test]
fn one_short_is_refused_and_no_more_is_asked_for() {
    let (width, height) = (33, 18);
    let (before, room) = (level0(width, height), vec![CANARY; 48]);
    let (mut texels, mut ranges) = (before.clone(), room.clone());
    for (texels_len, ranges_len) in [(593, 48), (594, 47), (593, 47), (0, 48), (594, 0)] {
        let (lent, beside) = (&mut texels[..texels_len], &mut ranges[..ranges_len]);
        assert_eq!(number(build_ranges(4u32, width, height, lent, beside)), 3, "{texels_len}, {ranges_len}");
        assert_eq!(number(replace_texel(4u32, width, height, lent, beside, 32, 17, OTHER)), 3, "{texels_len}, {ranges_len}");
    }
    assert_eq!((&texels, &ranges), (&before, &room));
    assert_eq!(build_ranges(4u32, width, height, &texels, &mut ranges), Ok(48));
    assert_eq!(replace_texel(4u32, width, height, &mut texels, &mut ranges, 32, 17, OTHER), Ok(()));
}

#[test]
fn a_place_outside_is_refused_on_every_side() {
    // 16 wide: one to the right is the next row's first entry, and 2^28 rows are 2^32 entries; u32::MAX is one left of 0
    let fresh = Picture::new(TextureType::Linear, 16, 20, &level0(16, 20)).unwrap().ranges().unwrap();
    let (xs, ys) = ([0, 15, 16, 1 << 31, u32::MAX], [0, 19, 20, 1 << 28, 1 << 31, u32::MAX]);
    for (x, y) in xs.iter().flat_map(|&x| ys.map(|y| (x, y))) {
        let refused = (x > 15 || y > 19).then_some(14);
        assert_eq!(fresh.tile(x, y).err().map(Refusal::number), refused, "({x}, {y})");
        let mut ranges = fresh.clone();
        assert_eq!(ranges.replace(x, y, OTHER).err().map(Refusal::number), refused, "({x}, {y})");
        assert_eq!(ranges == fresh, refused.is_some(), "({x}, {y})");
    }
}

#[test]
fn a_cubemap_has_no_ranges() {
    let studio = Picture::new(TextureType::Cubemap, 17, 17, &grain(6 * 17 * 17)).unwrap();
    assert_eq!(number(studio.ranges()), 8);
}

#[test]
fn a_colour_at_either_end_saturates_and_alpha_never_does() {
    let saturates = |texel: u32| {
        let mut ranges = Picture::new(TextureType::SRGB, 48, 20, &[GREY; 48 * 20]).unwrap().ranges().unwrap();
        ranges.replace(20, 17, texel).unwrap();
        ranges.saturated().map(|t| (t.x, t.y)).collect::<Vec<_>>()
    };
    for texel in [0xFF808080, 0x80FF8080, 0x8080FF80, 0x00808080, 0x80008080, 0x80800080] {
        assert_eq!(saturates(texel), [(16, 16)], "{texel:08X}");
    }
    for texel in [0x808080FF, 0x80808000, 0xFEFEFEFE, 0x01010101, 0x01FE01FF, 0xFE01FE00] {
        assert_eq!(saturates(texel), [], "{texel:08X}");
    }
}

#[test]
fn the_picture_of_replaced_texels_has_their_own_levels() {
    let whole = Picture::new(TextureType::SRGB, 70, 50, &level0(70, 50)).unwrap();
    let picture = whole.reopen(1).unwrap();
    let mut ranges = picture.ranges().unwrap();
    assert_eq!((ranges.width(), ranges.height(), ranges.level0()), (35, 25, picture.level(0).unwrap()));
    assert_eq!(ranges.picture().unwrap(), picture);

    let mut texels = picture.level(0).unwrap().to_vec();
    ranges.replace(34, 24, OTHER).unwrap();
    ranges.replace(0, 1, !texels[35]).unwrap();
    (texels[24 * 35 + 34], texels[35]) = (OTHER, !texels[35]);
    let mended = ranges.picture().unwrap();
    assert_eq!(mended.texels(), Picture::new(TextureType::SRGB, 35, 25, &texels).unwrap().texels());
    assert_ne!(mended.level(1).unwrap(), picture.level(1).unwrap());
    assert_eq!((mended.texture_type(), mended.reductions()), (TextureType::SRGB, 1));
}
