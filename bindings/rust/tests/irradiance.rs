//! The light of a cubemap: which texel lights from where, what is decoded, what is read, and each refusal before each later one.

use std::f32::consts::PI;

use swathecold::*;

const BLACK: u32 = 0x000000FF;
const WHITE: u32 = 0xFFFFFFFF;

/// Texels without a pattern.
fn grain(count: usize) -> Vec<u32> {
    (0..count as u32).map(|i| (i ^ i >> 3).wrapping_mul(2654435761).rotate_left(9).wrapping_mul(2246822519)).collect()
}

fn six_faces(width: u32, height: u32) -> usize {
    6 * width as usize * height as usize
}

fn light(width: u32, height: u32, texels: &[u32]) -> IrradianceSh4 {
    irradiance_sh4(TextureType::Cubemap, width, height, texels).expect("this cubemap is good")
}

/// The light of a black cubemap with one other texel.
fn light_of_one(width: u32, height: u32, at: usize, texel: u32) -> IrradianceSh4 {
    let mut texels = vec![BLACK; six_faces(width, height)];
    texels[at] = texel;
    light(width, height, &texels)
}

/// The curve itself.
fn decoded(byte: u8) -> f64 {
    let value = f64::from(byte) / 255.0;
    if byte <= 10 {
        value / 12.92
    } else {
        ((value + 0.055) / 1.055).powf(2.4)
    }
}

/// The rule in f64, where its order does not show.
fn read_plainly(width: u32, height: u32, texels: &[u32]) -> [[f64; 3]; 4] {
    let (w, h, pi) = (f64::from(width), f64::from(height), std::f64::consts::PI);
    let mut sh = [[0.0; 3]; 4];
    for (n, texel) in texels[..six_faces(width, height)].iter().enumerate() {
        let (face, x, y) = (n as u32 / (width * height), n as u32 % width, n as u32 / width % height);
        let (u, v) = ((f64::from(x) + 0.5) / w * 2.0 - 1.0, (f64::from(y) + 0.5) / h * 2.0 - 1.0);
        let direction = [[1.0, -v, -u], [-1.0, -v, u], [u, 1.0, v], [u, -1.0, -v], [u, -v, 1.0], [-u, -v, -1.0]][face as usize];
        let root = (1.0 + u * u + v * v).sqrt();
        let [x, y, z] = direction.map(|d| 0.488603 * 0.488603 * 2.0 / 3.0 * d / root);
        for (sum, part) in sh.iter_mut().zip([0.282095 * 0.282095, y, z, x]) {
            for (colour, byte) in sum.iter_mut().zip(texel.to_be_bytes()) {
                *colour += decoded(byte) * part * pi * 4.0 / (w * h * root.powi(3));
            }
        }
    }
    sh
}

fn number<T: std::fmt::Debug>(answer: Result<T, Refusal>) -> u32 {
    answer.expect_err("this input is bad").number()
}

#[test]
fn a_black_cube_has_twelve_zeros_whatever_its_alpha() {
    for (width, height) in [(1, 1), (2, 3), (16, 16), (4096, 1)] {
        let black: Vec<u32> = grain(six_faces(width, height)).iter().map(|t| t & 0xFF).collect();
        let bits = light(width, height, &black).sh.map(|colour| colour.map(f32::to_bits));
        assert_eq!(bits, [[0; 3]; 4], "{width} by {height}: +0, and no -0");
    }
}

#[test]
fn a_white_cube_has_pi_from_everywhere() {
    for (side, off) in [(8, 0.02), (16, 0.005), (32, 0.002), (100, 0.001), (256, 0.001)] {
        let sh = light(side, side, &vec![WHITE; six_faces(side, side)]).sh;
        assert!((sh[0][0] - PI).abs() < off, "{side} square: {sh:?}");
        assert!(sh[1..].iter().all(|colour| colour[0].abs() < 1e-5), "{side} square: {sh:?}");
        assert!(sh.iter().all(|&[red, green, blue]| red == green && red == blue), "{side} square: {sh:?}");
    }
}

#[test]
fn a_texel_in_a_faces_middle_lights_along_its_axis_alone() {
    for (face, (coefficient, sign)) in [(3, 1.0), (3, -1.0), (1, 1.0), (1, -1.0), (2, 1.0), (2, -1.0)].into_iter().enumerate() {
        let sh = light_of_one(5, 3, face * 15 + 7, WHITE).sh;
        assert!(sh[0][0] > 0.0, "face {face}: {sh:?}");
        for other in 1..4 {
            let lit = if other == coefficient { sign } else { 0.0 };
            assert!(sh[other].iter().all(|c| if lit == 0.0 { *c == 0.0 } else { c * lit > 0.0 }), "face {face}: {sh:?}");
        }
    }
}

#[test]
fn each_texel_lights_from_where_a_lookup_sees_it() {
    let (width, height) = (7, 4);
    for n in 0..six_faces(width, height) {
        let sh = light_of_one(width, height, n, WHITE).sh;
        let from = cubemap_uv_from_normal(Vec3x4 { x: [sh[3][0]; 4], y: [sh[1][0]; 4], z: [sh[2][0]; 4] }).unwrap();
        let (face, x, y) = (n / 28, n % 7, n / 7 % 4);
        assert_eq!(from.faces[0] as usize, face, "texel {n}");
        assert!((from.u[0] - (x as f32 + 0.5) / 7.0).abs() < 1e-5, "texel {n}: {from:?}");
        assert!((from.v[0] - (y as f32 + 0.5) / 4.0).abs() < 1e-5, "texel {n}: {from:?}");
    }
}

#[test]
fn each_colour_is_decoded_by_the_curve_and_stays_its_own() {
    let white = light_of_one(1, 1, 2, WHITE).sh[1][0];
    for byte in 0..=255 {
        for (c, texel) in [[byte, 0, 0, 9], [0, byte, 0, 0], [0, 0, byte, 255]].map(u32::from_be_bytes).into_iter().enumerate() {
            let sh = light_of_one(1, 1, 2, texel).sh;
            assert!((f64::from(sh[1][c] / white) - decoded(byte)).abs() < 1e-6, "{texel:08X}: {sh:?}");
            assert!(sh.iter().all(|s| (0..3).all(|other| other == c || s[other].to_bits() == 0)), "{texel:08X}: {sh:?}");
        }
    }
}

#[test]
fn every_texel_counts_by_its_solid_angle() {
    for (width, height) in [(1, 1), (2, 2), (1, 9), (9, 1), (5, 3), (33, 18)] {
        let texels = grain(six_faces(width, height));
        let (found, expected) = (light(width, height, &texels).sh, read_plainly(width, height, &texels));
        for (f, e) in found.iter().flatten().zip(expected.iter().flatten()) {
            assert!((f64::from(*f) - e).abs() < 1e-5, "{width} by {height}: {found:?}, {expected:?}");
        }
    }
}

#[test]
fn only_level_0_is_read() {
    let (width, height) = (6, 5);
    let level0 = grain(six_faces(width, height));
    let picture = Picture::new(TextureType::Cubemap, width, height, &level0).unwrap();
    let mut longer = level0.clone();
    longer.extend([WHITE; 100]);
    assert_eq!(light(width, height, &longer), light(width, height, &level0));
    assert_eq!(picture.irradiance_sh4(), Ok(light(width, height, &level0)));
    let (reopened, sizes) = (picture.reopen(1).unwrap(), picture.level_sizes(1).unwrap());
    assert_eq!(reopened.irradiance_sh4(), Ok(light(sizes.width, sizes.height, &picture.texels()[sizes.start..])));
    assert_ne!(reopened.irradiance_sh4(), picture.irradiance_sh4());
}

#[test]
fn a_surface_gets_the_constant_and_its_normals_share_of_the_others() {
    let light = IrradianceSh4 { sh: [[1.0, 2.0, 3.0], [10.0, 20.0, 30.0], [100.0, 200.0, 300.0], [1000.0, 2000.0, 3000.0]] };
    assert_eq!(light.on([0.0; 3]), [1.0, 2.0, 3.0]);
    assert_eq!(light.on([1.0, 0.0, 0.0]), [1001.0, 2002.0, 3003.0]);
    assert_eq!(light.on([0.0, -1.0, 0.0]), [-9.0, -18.0, -27.0]);
    assert_eq!(light.on([0.0, 0.0, 1.0]), [101.0, 202.0, 303.0]);
    assert_eq!(light.on([0.5, 0.5, -0.5]), [456.0, 912.0, 1368.0]);
}

/// What can be wrong with a call, in the order in which it is refused: kind, side, level 0, no cubemap.
const FAULTS: [u32; 4] = [1, 2, 3, 8];

#[test]
fn each_refusal_comes_before_each_later_one_and_changes_nothing() {
    // an unknown kind is no cubemap either: it has one face as level 0
    for faults in 0..1u32 << FAULTS.len() {
        let [kind, side, short, other] = [0, 1, 2, 3].map(|n| faults >> n & 1);
        let (width, height) = (17 + side * 4080, 2);
        let level0 = (if kind + other == 0 { 6 } else { 1 }) * width * height;
        let texels = grain(level0 as usize);
        let before = texels.clone();
        let answer = irradiance_sh4(3 + 2 * kind + other, width, height, &texels[short as usize..]);
        let first = FAULTS.get(faults.trailing_zeros() as usize).copied();
        assert_eq!(answer.err().map(Refusal::number), first, "faults {faults:04b}");
        assert_eq!(texels, before, "faults {faults:04b}");
    }
}

#[test]
fn kinds_and_sides_are_refused_one_by_one() {
    let texels = grain(six_faces(3, 2));
    for kind in [5, 6, 255, 256 + 3, u32::MAX] {
        assert_eq!(number(irradiance_sh4(kind, 3, 2, &texels)), 1, "kind {kind}");
    }
    for (width, height) in [(0, 2), (2, 0), (4097, 2), (2, 4097), (u32::MAX, 2), (2, u32::MAX), (1 << 31, 2), (2, 1 << 31)] {
        assert_eq!(number(irradiance_sh4(TextureType::Cubemap, width, height, &texels)), 2, "{width} by {height}");
    }
    for kind in [TextureType::SRGB, TextureType::Normal, TextureType::MetallicRoughness, TextureType::Linear] {
        assert_eq!(number(irradiance_sh4(kind, 3, 2, &texels[..5])), 3, "{kind:?}, one short of a face");
        assert_eq!(number(irradiance_sh4(kind, 3, 2, &texels[..6])), 8, "{kind:?}");
        assert_eq!(number(Picture::new(kind, 3, 2, &texels).unwrap().irradiance_sh4()), 8, "{kind:?}");
    }
}

#[test]
fn one_short_is_refused_and_no_more_is_asked_for() {
    let texels = grain(six_faces(3, 2));
    for lent in [0, 6, 30, 35] {
        assert_eq!(number(irradiance_sh4(TextureType::Cubemap, 3, 2, &texels[..lent])), 3, "{lent} texels");
    }
    assert!(irradiance_sh4(TextureType::Cubemap, 3, 2, &texels).is_ok());
    // the product of the sides is what must fit, not its lower bits
    assert_eq!(number(irradiance_sh4(TextureType::Cubemap, 4096, 4096, &texels)), 3);
}
