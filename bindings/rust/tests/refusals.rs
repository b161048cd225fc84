//! Every number that the bindings can be refused by, each with a call that gives it; and that a refusal changes nothing.

use swathecold::*;

fn number<T: std::fmt::Debug>(answer: Result<T, Refusal>) -> u32 {
    answer.expect_err("this input is bad").number()
}

#[test]
fn each_number_is_given_by_its_own_input() {
    let (flat, still, clamp) = ([0.0; 4], [0.0; 4], Sampler::new(WrapMode::ClampToEdge, WrapMode::ClampToEdge));
    let texels = [0u32; 7];
    assert_eq!(number(level_sizes(5u32, 4, 1, 0)), 1);
    assert_eq!(number(level_sizes(4u32, 0, 1, 0)), 2);
    assert_eq!(number(sample4_rgb(4u32, 4, 1, &texels[1..], clamp, flat, flat, still)), 3);
    assert_eq!(number(sample4_rgb(4u32, 4, 1, &texels, Sampler { wrap_s: 33071, wrap_t: 7 }, flat, flat, still)), 4);
    assert_eq!(number(compute_mip_level(4, 1, [0.0, 0.0, f32::INFINITY, 0.0])), 5);
    assert_eq!(number(sample_bilinear_alpha(4u32, 4, 1, &texels, clamp, flat, flat, 3)), 6);
    assert_eq!(number(cubemap_uv_from_normal(Vec3x4::default())), 7);
    assert_eq!(number(sample_cubemap_rgb(4u32, 4, 1, &texels, Vec3x4::default(), [0; 4])), 8);
    assert_eq!(number(cut_cross(3, 3, &[0; 36], &mut [0; 6])), 10);
    let odd = Cut { order: 1, x: 1, y: 0, width: 2, height: 2 };
    assert_eq!(number(cut(4u32, 4, 2, &[0; 8], odd, &mut [0; 4])), 11);
    assert_eq!(number(replace_texel(4u32, 4, 1, &mut [0; 4], &mut [0; 8], 4, 0, 0)), 14);
    assert_eq!(number(generate_mipmaps(4u32, 4, 1, 2u32, &mut [0; 7])), 15);
}

#[test]
fn a_refused_call_leaves_its_buffers_alone() {
    let mut texels = [0x11223344u32; 6];
    assert_eq!(number(generate_mipmaps(TextureType::Linear, 4, 1, Packing::Truncating, &mut texels)), 3);
    assert_eq!(texels, [0x11223344; 6]);
    let mut target = [5u32; 3];
    let part = Cut { order: 0, x: 0, y: 0, width: 2, height: 2 };
    assert_eq!(number(cut(TextureType::Linear, 2, 2, &[0; 4], part, &mut target)), 3);
    assert_eq!(target, [5; 3]);
}

#[test]
fn every_number_has_words() {
    let short = number(Picture::new(TextureType::Linear, 4, 4, &[0; 15]));
    assert_eq!(short, 3);
    let said = level_sizes(9u32, 1, 1, 0).unwrap_err().to_string();
    assert_eq!(said, "refused 1: the kind is unknown; use 0 to 4");
    let code = Sampler { wrap_s: 1, ..Sampler::default() };
    let said = sample4_rgb(4u32, 1, 1, &[0], code, [0.0; 4], [0.0; 4], [0.0; 4]).unwrap_err().to_string();
    assert_eq!(
        said,
        "refused 4: a wrap code is unknown; use 10497, 33071, 33648, or 0, which is Repeat, where the file gives none"
    );
    let said = build_ranges(4u32, 1, 1, &[0], &mut [0; 7]).unwrap_err().to_string();
    assert_eq!(
        said,
        "refused 3: a buffer is too short; lend as many texels as level_sizes counts in the chain, \
         and for ranges eight bytes a tile, edge tiles included"
    );
    let said = replace_texel(4u32, 1, 1, &mut [0], &mut [0; 8], 0, 1, 0).unwrap_err().to_string();
    assert_eq!(said, "refused 14: the place lies outside the picture; use an x below the width and a y below the height");
    let said = generate_mipmaps(4u32, 1, 1, 2u32, &mut [0]).unwrap_err().to_string();
    assert_eq!(said, "refused 15: the packing mode is unknown; use 0, which truncates, or 1, which takes the nearest");
}

#[test]
fn a_cut_has_the_cuts_of_the_whole_as_its_levels() {
    let grain: Vec<u32> = (0..64 * 32u32).map(|i| i.wrapping_mul(2654435761)).collect();
    let picture = Picture::new(TextureType::SRGB, 64, 32, &grain).unwrap();
    let part = picture.cut(Cut { order: 3, x: 16, y: 8, width: 24, height: 16 }).unwrap();
    for j in 0..=3u32 {
        let (whole, sizes) = (picture.level(j).unwrap(), picture.level_sizes(j).unwrap());
        let (x, y, w, h) = (16 >> j, 8 >> j, 24usize >> j, 16 >> j);
        let cut: Vec<u32> = (0..h).flat_map(|r| whole[(y + r) * sizes.width as usize + x..][..w].to_vec()).collect();
        assert_eq!(part.level(j).unwrap(), cut, "level {j}");
    }
}

#[test]
fn reopening_composes_for_every_kind() {
    for kind in
        [TextureType::SRGB, TextureType::Normal, TextureType::MetallicRoughness, TextureType::Cubemap, TextureType::Linear]
    {
        let faces = if kind == TextureType::Cubemap { 6 } else { 1 };
        let grain: Vec<u32> = (0..faces * 21 * 13u32).map(|i| i.wrapping_mul(2246822519)).collect();
        let picture = Picture::new(kind, 21, 13, &grain).unwrap();
        for a in 0..=picture.max_mip_level() {
            let again = picture.reopen(a).unwrap();
            let start = picture.level_sizes(a).unwrap().start;
            assert_eq!(again.texels(), &picture.texels()[start..], "{kind:?}, {a} reductions");
            assert_eq!(again.reductions(), a);
        }
    }
}
