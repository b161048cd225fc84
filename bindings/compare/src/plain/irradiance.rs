//! T-04: four irradiance coefficients for each colour of a cubemap: the source's `compute_irradiance_sh4`, with 02's changes.

use super::curve::decoded;
use super::refusals::{first, of_level_0};
use super::rules::Rules;
use super::texel::bytes;
use super::{Answer, Lent, CUBEMAP};
use std::f32::consts::PI;

/// What each coefficient is multiplied by at the end, one after the other.
const FOLDED: [[f32; 2]; 4] = [
    [PI, 0.282095],
    [2.0 * PI / 3.0, 0.488603],
    [2.0 * PI / 3.0, 0.488603],
    [2.0 * PI / 3.0, 0.488603],
];

/// Where a place of a face lies on the cube, as `cubemap_face_uv_to_direction` has it.
#[inline]
pub fn on_cube(face: u32, u: f32, v: f32) -> [f32; 3] {
    match face {
        0 => [1.0, -v, -u],
        1 => [-1.0, -v, u],
        2 => [u, 1.0, v],
        3 => [u, -1.0, -v],
        4 => [u, -v, 1.0],
        _ => [-u, -v, -1.0],
    }
}

/// The coefficients of the sums, one behind the other.
pub fn folded(sums: [[f32; 3]; 4]) -> [f32; 12] {
    std::array::from_fn(|i| {
        let [lambert, constant] = FOLDED[i / 3];
        sums[i / 3][i % 3] * lambert * constant
    })
}

/// `irradiance_sh4` (1, 2, 3 of level 0, 8 for what is no cubemap) answers red, green, blue of each coefficient in turn.
pub fn irradiance_sh4<R: Rules>(lent: &Lent) -> Answer<[f32; 12]> {
    let [one, two, three] = of_level_0::<R>(lent);
    first::<R>(&[one, two, three, (8, lent.kind != CUBEMAP)])?;
    let (width, height) = (lent.width, lent.height);
    let (width_f, height_f) = (width as f32, height as f32);
    let texel_omega = (2.0 / width_f) * (2.0 / height_f);
    let mut sums = [[0.0; 3]; 4];
    for face in 0..6 {
        for number in 0..width * height {
            let (x, y) = R::place_in_face(number, width, height);
            let (u, v) = R::centre(x, y, width_f, height_f);
            let d = R::squared_length(u, v);
            let root = d.sqrt();
            let weight = R::weight(texel_omega, d, root);
            let basis = R::basis(on_cube(face, u, v).map(|component| R::divided(component, root)));
            // Each texel is decoded through T directly, and not sampled.
            let texel = lent.texels[(face * height + y) as usize * width as usize + x as usize];
            let colour = bytes(texel).map(decoded);
            for i in 0..4 {
                for channel in 0..3 {
                    sums[i][channel] += R::added(colour[channel], basis[i], weight);
                }
            }
        }
    }
    Ok(folded(sums))
}

#[cfg(test)]
mod tests {
    use super::super::{Document01, SRGB};
    use super::*;

    /// The coefficients of a cubemap, as red, green, blue of each.
    fn coefficients(width: u32, height: u32, texels: &[u32]) -> [[f32; 3]; 4] {
        let lent = Lent {
            kind: CUBEMAP,
            width,
            height,
            texels,
        };
        let sh = irradiance_sh4::<Document01>(&lent).expect("a cubemap that is taken");
        std::array::from_fn(|i| std::array::from_fn(|channel| sh[3 * i + channel]))
    }

    #[test]
    fn a_black_cubemap_gives_zeros() {
        for (width, height) in [(1, 1), (2, 3), (8, 5)] {
            let texels: Vec<u32> = (0..6 * width * height).map(|i| i % 256).collect();
            let bits = coefficients(width, height, &texels).map(|rgb| rgb.map(f32::to_bits));
            assert_eq!(bits, [[0; 3]; 4], "{width} by {height}");
        }
    }

    /// Y, z and x stand in the second, third and fourth coefficient.
    #[test]
    fn a_bright_face_is_seen_along_its_axis() {
        for face in 0..6 {
            let mut texels = [0; 6];
            texels[face] = 0x00FF_0000;
            let mut signs = [1, 0, 0, 0];
            signs[[3, 1, 2][face / 2]] = if face % 2 == 0 { 1 } else { -1 };
            for (sign, rgb) in signs.into_iter().zip(coefficients(1, 1, &texels)) {
                assert_eq!(
                    rgb.map(|c| (c > 0.0) as i32 - (c < 0.0) as i32),
                    [0, sign, 0],
                    "face {face}"
                );
            }
        }
    }

    /// One texel a face: u = v = 0, d and its root are 1, and a texel's weight is 4.
    #[test]
    fn the_first_coefficient_of_six_texels() {
        let sum = (0..6).fold(0.0, |sum: f32, _| sum + 0.282095 * 4.0);
        assert_eq!(coefficients(1, 1, &[0xFFFF_FF00; 6])[0], [sum * PI * 0.282095; 3]);
    }

    #[test]
    fn what_is_refused() {
        let of = |kind, width, height, length| {
            let texels = vec![0; length];
            let lent = Lent {
                kind,
                width,
                height,
                texels: &texels,
            };
            irradiance_sh4::<Document01>(&lent).err()
        };
        assert_eq!(of(5, 0, 1, 0), Some(1));
        assert_eq!(of(SRGB, 4097, 1, 0), Some(2));
        assert_eq!(of(CUBEMAP, 2, 1, 11), Some(3));
        assert_eq!(of(SRGB, 2, 1, 1), Some(3));
        assert_eq!(of(SRGB, 2, 1, 2), Some(8));
        assert_eq!(of(CUBEMAP, 2, 1, 12), None);
    }
}
