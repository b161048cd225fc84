//! Cubemaps whose coefficients say something, and their levels.

use std::fs;
use std::path::Path;
use swathecold_compare::plain::{
    chain_texels, decoded_table, generate_mipmaps, level_sizes, on_cube, top_level, Document01, Lent, CUBEMAP,
    TRUNCATING,
};
use swathecold_compare::random::Random;
use swathecold_compare::unit::Unit;

/// A cubemap of square faces, with its whole chain where it has one.
pub struct Cube {
    pub side: u32,
    texels: Vec<u32>,
}

impl Cube {
    /// A cubemap of one colour.
    pub fn of(side: u32, texel: u32) -> Cube {
        let texels = vec![texel; 6 * (side * side) as usize];
        Cube { side, texels }
    }

    /// A cubemap without a pattern.
    pub fn drawn(side: u32, random: &mut Random) -> Cube {
        let texels = (0..6 * side * side).map(|_| random.next() as u32).collect();
        Cube { side, texels }
    }

    /// The same with one other texel.
    #[cfg(source)]
    pub fn with(mut self, face: u32, x: u32, y: u32, texel: u32) -> Cube {
        self.texels[((face * self.side + y) * self.side + x) as usize] = texel;
        self
    }

    /// The studio among the samples.
    pub fn studio() -> Cube {
        let file = Path::new(env!("CARGO_MANIFEST_DIR")).join("../../samples/studio.txr");
        let bytes = fs::read(&file).unwrap_or_else(|error| panic!("{}: {error}", file.display()));
        let texels = bytes[10..]
            .chunks_exact(4)
            .map(|four| u32::from_be_bytes(four.try_into().unwrap()));
        Cube {
            side: u16::from_le_bytes([bytes[6], bytes[7]]) as u32,
            texels: texels.collect(),
        }
    }

    /// Its levels, level 0 first.
    pub fn levels(mut self) -> Vec<Cube> {
        self.texels
            .resize(chain_texels::<Document01>(CUBEMAP, self.side, self.side) as usize, 0);
        generate_mipmaps::<Document01>(CUBEMAP, self.side, self.side, TRUNCATING, &mut self.texels)
            .expect("a cubemap that is taken");
        let level = |m: u32| {
            let [start, side, ..] = level_sizes::<Document01>(CUBEMAP, self.side, self.side, m).expect("a level");
            let part = &self.texels[start as usize..][..6 * (side * side) as usize];
            Cube {
                side: side as u32,
                texels: part.to_vec(),
            }
        };
        (0..=top_level(self.side, self.side)).map(level).collect()
    }

    /// The sums that its coefficients are made of, by the same rule in f64.
    pub fn sums(&self) -> [f64; 12] {
        let (side, table) = (self.side as f64, decoded_table());
        let centre = |place: u32| (place as f64 + 0.5) / side * 2.0 - 1.0;
        let mut sums = [0.0; 12];
        for (place, texel) in self.texels.iter().enumerate() {
            let (row, x) = (place as u32 / self.side, place as u32 % self.side);
            let (face, u, v) = (row / self.side, centre(x), centre(row % self.side));
            let d = 1.0 + u * u + v * v;
            let weight = 4.0 / (side * side * d * d.sqrt());
            let [x, y, z] = on_cube(face, u as f32, v as f32).map(|component| component as f64 / d.sqrt());
            for (i, factor) in [0.282095, 0.488603 * y, 0.488603 * z, 0.488603 * x]
                .into_iter()
                .enumerate()
            {
                for channel in 0..3 {
                    let byte = texel.to_be_bytes()[channel];
                    sums[3 * i + channel] += table[byte as usize] as f64 * factor * weight;
                }
            }
        }
        sums
    }

    /// Its coefficients.
    pub fn coefficients(&self, unit: &dyn Unit) -> [f32; 12] {
        let picture = Lent {
            kind: CUBEMAP,
            width: self.side,
            height: self.side,
            texels: &self.texels,
        };
        let mut sh = [0.0; 12];
        assert_eq!(unit.irradiance_sh4(&picture, &mut sh), 0);
        sh
    }
}
