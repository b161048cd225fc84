//! Accepted arguments for every call, each of which can be spoiled so that one refusal's condition holds.

use super::directions::of;
use super::texels::bytes;
use super::values::{coordinates, direction, fractional_level, steps};
use super::CODES;
use crate::call::Call;
use crate::plain::{
    chain_texels, generate_mipmaps, level_texels, ranges_bytes, top_level, Cut, Document01, Lanes, Lent, Replacement,
    Rules, CUBEMAP, TRUNCATING,
};
use crate::random::{ulps, Random};
use crate::unit::{Directions, Picture};

/// Refusal 3 of the second buffer, where a call has two: a target, or ranges.
pub const TARGET: u32 = 33;

/// The arguments of any call.
pub struct Arguments {
    pub kind: u32,
    pub width: u32,
    pub height: u32,
    mode: u32,
    texels: Vec<u32>,
    number: u64,
    level: u32,
    faces: [u32; 4],
    codes: [u32; 2],
    u: Lanes,
    v: Lanes,
    steps: Lanes,
    directions: Directions,
    levels: [u32; 4],
    fractions: Lanes,
    cut: Cut,
    bytes: Vec<u8>,
    target: Vec<u32>,
    ranges: Vec<u8>,
    replacement: Replacement,
}

/// Accepted arguments for the call of this number, with a small picture of a kind that it takes.
pub fn accepted(random: &mut Random, call: usize, number: u64) -> Arguments {
    let kind = taken_kind(random, call);
    // A cross has faces of one texel at least, a picture with ranges up to nine tiles; coefficients take every texel.
    let (least, most) = match call {
        2 => (4, 12),
        13 | 14 => (1, 36),
        15 => (1, 8),
        _ => (1, 12),
    };
    let (width, height) = (random.between(least, most) as u32, random.between(least, most) as u32);
    of_picture(random, call, number, kind, width, height)
}

/// A kind that the call takes.
pub fn taken_kind(random: &mut Random, call: usize) -> u32 {
    match call {
        11 | 12 | 15 => CUBEMAP,
        3 | 6 | 7 | 9 | 13 | 14 => random.pick(&[0, 1, 2, 4]),
        _ => random.below(5) as u32,
    }
}

/// Accepted arguments for a picture that the call takes.
pub fn of_picture(random: &mut Random, call: usize, number: u64, kind: u32, width: u32, height: u32) -> Arguments {
    let top = top_level(width, height);
    let level = random.below(top as u64 + 1) as u32;
    let (level_width, level_height) = (
        Document01::level_side(width, level),
        Document01::level_side(height, level),
    );
    Arguments {
        kind,
        width,
        height,
        mode: TRUNCATING,
        texels: Vec::new(),
        number,
        level,
        faces: std::array::from_fn(|_| if kind == CUBEMAP { random.below(6) as u32 } else { 0 }),
        codes: [random.pick(&CODES), random.pick(&CODES)],
        u: coordinates(random, level_width),
        v: coordinates(random, level_height),
        steps: steps(random, width, height),
        directions: of(std::array::from_fn(|_| direction(random, level_width, level_height))),
        levels: std::array::from_fn(|_| {
            if random.one_in(2) {
                level
            } else {
                random.below(top as u64 + 2) as u32
            }
        }),
        fractions: std::array::from_fn(|_| fractional_level(random, top)),
        cut: Cut {
            order: 0,
            corner_x: 0,
            corner_y: height - 1,
            width,
            height: 1,
        },
        bytes: Vec::new(),
        target: Vec::new(),
        ranges: Vec::new(),
        // Drawn for its own call alone, so that the other calls of a seed stay as they are.
        replacement: if call == 14 {
            replacement(random, width, height)
        } else {
            Replacement { x: 0, y: 0, texel: 0 }
        },
    }
}

/// A replacement inside a picture.
pub fn replacement(random: &mut Random, width: u32, height: u32) -> Replacement {
    Replacement {
        x: random.below(width as u64) as u32,
        y: random.below(height as u64) as u32,
        texel: random.next() as u32,
    }
}

impl Arguments {
    /// Spoils one argument of the call, so that the refusal's condition holds. Buffers are spoiled in `lend`.
    pub fn spoil(&mut self, random: &mut Random, call: usize, refusal: u32) {
        let lane = random.below(4) as usize;
        match refusal {
            1 => self.kind = random.pick(&[5, 6, 255, 256, 1 << 31, u32::MAX]),
            2 => {
                let side = random.pick(&[0, 4097, 8192, 65536, 1 << 31, u32::MAX]);
                *random.pick_mut(&mut self.width, &mut self.height) = side;
            }
            4 => {
                let code = random.pick(&[
                    1,
                    9729,
                    10496,
                    10498,
                    33070,
                    33072,
                    33069,
                    33647,
                    33649,
                    76033,
                    u32::MAX,
                ]);
                self.codes[lane % 2] = code;
            }
            5 => self.spoil_number(random, call, lane),
            6 => {
                let top = top_level(self.width, self.height);
                self.level = random.pick(&[top + 1, top + 2, 31, 32, u32::MAX]);
            }
            7 => self.spoil_direction(random, lane),
            8 => self.spoil_kind_or_face(random, call, lane),
            10 => {
                let (width, height) =
                    random.pick(&[(3, 9), (9, 2), (0, 9), (9, 0), (16388, 9), (9, 12291), (u32::MAX, 9)]);
                (self.width, self.height) = (width, height);
            }
            11 => self.spoil_cut(random),
            14 => self.spoil_place(random),
            15 => self.mode = random.pick(&[2, 3, 4, 255, 256, 1 << 31, u32::MAX]),
            _ => (),
        }
    }

    /// A coordinate, step or fractional level that is not finite, or a coordinate above 2,048.
    fn spoil_number(&mut self, random: &mut Random, call: usize, lane: usize) {
        let not_finite = random.pick(&[f32::NAN, -f32::NAN, f32::INFINITY, f32::NEG_INFINITY]);
        let above = random.sign() * random.pick(&[ulps(2048.0, 1), 2049.0, 1e30, f32::MAX]);
        let coordinate = random.pick(&[not_finite, above]);
        match (call, random.below(3)) {
            (12, _) => self.fractions[lane] = not_finite,
            (5, _) | (6 | 7, 0) => self.steps[lane] = not_finite,
            (_, 1) => self.u[lane] = coordinate,
            _ => self.v[lane] = coordinate,
        }
    }

    /// A direction that is refused.
    fn spoil_direction(&mut self, random: &mut Random, lane: usize) {
        let (least, most) = (f32::powi(2.0, -60), f32::powi(2.0, 60));
        let d = &mut self.directions;
        let component = match random.below(3) {
            0 => &mut d.x,
            1 => &mut d.y,
            _ => &mut d.z,
        };
        match random.below(3) {
            0 => component[lane] = random.pick(&[f32::NAN, f32::INFINITY, f32::NEG_INFINITY]),
            1 => component[lane] = random.sign() * random.pick(&[ulps(most, 1), f32::MAX]),
            _ => {
                let small = random.pick(&[0.0, -0.0, f32::from_bits(1), -ulps(least, -1), ulps(least, -1)]);
                (d.x[lane], d.y[lane], d.z[lane]) = (small, -small, 0.0);
            }
        }
    }

    /// A kind that the call does not take, or a face that the kind has not.
    fn spoil_kind_or_face(&mut self, random: &mut Random, call: usize, lane: usize) {
        match call {
            3 | 6 | 7 | 9 | 13 | 14 => self.kind = CUBEMAP,
            11 | 12 | 15 => self.kind = random.pick(&[0, 1, 2, 4]),
            _ if self.kind == CUBEMAP => self.faces[lane] = random.pick(&[6, 7, 255, u32::MAX]),
            _ => self.faces[lane] = random.pick(&[1, 5, 6, u32::MAX]),
        }
        if call == 4 {
            self.faces[0] = self.faces[lane];
        }
    }

    /// A cut that is refused.
    fn spoil_cut(&mut self, random: &mut Random) {
        match random.below(6) {
            0 => self.cut.order = random.pick(&[13, 31, 32, u32::MAX]),
            1 => self.cut.width = 0,
            2 => self.cut.height = 0,
            3 => self.cut.corner_x = random.pick(&[1, u32::MAX, u32::MAX - self.cut.width + 1]),
            4 => self.cut.corner_y += 1,
            _ => (self.cut.order, self.cut.corner_x) = (4, 0),
        }
    }

    /// A place outside the picture.
    fn spoil_place(&mut self, random: &mut Random) {
        let Replacement { x, y, .. } = &mut self.replacement;
        let (place, side) = if random.one_in(2) {
            (x, self.width)
        } else {
            (y, self.height)
        };
        *place = random.pick(&[side, side.saturating_add(1), side | 1 << 31, u32::MAX]);
    }

    /// Buffers for the arguments as they are now: exact or longer, or shorter where refusal 3 is to hold.
    pub fn lend(&mut self, random: &mut Random, call: usize, short: bool, target_short: bool) {
        // No buffer is made for a side that is refused.
        let held = |side: u32| if side == 0 || side > 4096 { 20 } else { side };
        let (width, height) = (held(self.width), held(self.height));
        let level_0 = level_texels::<Document01>(self.kind, width, height, 0) as usize;
        let chain = chain_texels::<Document01>(self.kind, width, height) as usize;
        let whole = match call {
            // The other levels may stand behind level 0, and nobody looks at them.
            13 | 14 if !short && self.kind != CUBEMAP && random.one_in(2) => chain,
            15 if !short && random.one_in(2) => chain,
            3 | 13 | 14 | 15 => level_0,
            _ => chain,
        };
        let length = shortened(random, whole, short);
        self.texels = (0..length).map(|_| random.next() as u32).collect();
        let length = shortened(random, width as usize * height as usize * 4, short);
        self.bytes = bytes(random, length);
        let written = if call == 2 {
            (6 * (width / 4) * (height / 3)) as usize
        } else {
            held(self.cut.width) as usize * held(self.cut.height) as usize
        };
        self.target = vec![0x0BAD_F00D; shortened(random, written.max(1), target_short)];
        if matches!(call, 13 | 14) {
            let length = shortened(random, ranges_bytes(width, height) as usize, target_short);
            self.ranges = bytes(random, length);
        }
        if matches!(call, 16 | 17) && random.one_in(2) {
            self.make_levels(random);
        }
    }

    /// Levels that were made, where the chain call takes the arguments; then, in half of the chains, one bit or all of a texel changed.
    fn make_levels(&mut self, random: &mut Random) {
        let _ = generate_mipmaps::<Document01>(self.kind, self.width, self.height, self.mode, &mut self.texels);
        let place = random.below(2 * self.texels.len() as u64) as usize;
        if let Some(texel) = self.texels.get_mut(place) {
            *texel ^= random.pick(&[1, u32::MAX]);
        }
    }

    /// Other texels and bytes in the buffers, as many as before; one that is only written holds `before` everywhere.
    pub fn refill(&mut self, texels: impl Fn(usize) -> Vec<u32>, bytes: impl Fn(usize) -> Vec<u8>, before: u32) {
        self.texels = texels(self.texels.len());
        self.bytes = bytes(self.bytes.len());
        self.ranges = bytes(self.ranges.len());
        self.target.fill(before);
    }

    /// The cut in the place of the whole last row.
    pub fn set_cut(&mut self, cut: Cut) {
        self.cut = cut;
    }

    /// A mode in the place of the truncating one.
    pub fn set_mode(&mut self, mode: u32) {
        self.mode = mode;
    }

    /// The call of this number with these arguments.
    #[rustfmt::skip]
    pub fn call(&self, call: usize) -> Call<'_> {
        let &Arguments { kind, width, height, level, faces, codes, u, v, steps, directions, levels, .. } = self;
        let lent = Lent { kind, width, height, texels: &self.texels };
        let picture = Picture { number: self.number, lent };
        match call {
            0 => Call::LevelSizes { kind, width, height, level },
            1 => Call::GenerateMipmaps { kind, width, height, mode: self.mode, texels: &self.texels },
            2 => Call::CutCross { width, height, bytes: &self.bytes, faces: &self.target },
            3 => Call::Cut { source: lent, cut: self.cut, target: &self.target },
            4 => Call::LevelView { picture: lent, level, face: faces[0] },
            5 => Call::ComputeMipLevel { width, height, steps },
            6 => Call::Sample4Rgb { picture, codes, u, v, steps },
            7 => Call::Sample4Alpha { picture, codes, u, v, steps },
            8 => Call::SampleBilinearRgb { picture, codes, u, v, level, faces },
            9 => Call::SampleBilinearAlpha { picture, codes, u, v, level },
            10 => Call::CubemapUvFromNormal { directions },
            11 => Call::SampleCubemapRgb { picture, directions, levels },
            12 => Call::SampleCubemapTrilinearRgb { picture, directions, levels: self.fractions },
            13 => Call::BuildRanges { picture: lent, ranges: &self.ranges },
            14 => Call::ReplaceTexel { picture: lent, ranges: &self.ranges, replacement: self.replacement },
            15 => Call::IrradianceSh4 { picture: lent },
            16 => Call::CheckChain { picture: lent, mode: self.mode },
            _ => Call::CheckLevel { picture: lent, mode: self.mode, level },
        }
    }
}

/// A length one short or shorter where it is to be short, and exact or longer where not.
fn shortened(random: &mut Random, exact: usize, short: bool) -> usize {
    match (short, random.below(3)) {
        (true, 0) => 0,
        (true, 1) => exact / 2,
        (true, _) => exact - 1,
        (false, longer) => exact + longer as usize,
    }
}
