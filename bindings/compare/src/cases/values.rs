//! Numbers for lookups: drawn so that each rule's borders are met often. All are accepted ones.

use crate::plain::{Document01, Lanes, Rules};
use crate::random::{ulps, Random};

/// Side for a lookup's picture: mostly 1 to 40, sometimes around a power of two, and 4,095 or 4,096.
pub fn sides(random: &mut Random) -> (u32, u32) {
    let small = |random: &mut Random| random.between(1, 40) as u32;
    let (a, b) = match random.below(8) {
        0 => (random.pick(&[4095, 4096]), random.between(1, 3) as u32),
        1 => {
            let power = 1i64 << random.between(5, 11);
            ((power + random.between(-1, 1)) as u32, random.between(1, 9) as u32)
        }
        _ => (small(random), small(random)),
    };
    if random.one_in(2) {
        (a, b)
    } else {
        (b, a)
    }
}

/// A number within a few places of a border, held to the coordinates' range.
fn near(random: &mut Random, border: f64) -> f32 {
    let places = random.between(-3, 3);
    ulps(border as f32, places).clamp(-2048.0, 2048.0)
}

/// A texel number around a multiple of the side.
fn around_multiple(random: &mut Random, side: u32) -> f64 {
    let multiple = match random.below(3) {
        0 => random.between(-2048, 2047),
        _ => random.between(-3, 3),
    };
    (multiple * side as i64 + random.between(-2, 2)) as f64
}

/// A coordinate for a level side.
pub fn coordinate(random: &mut Random, side: u32) -> f32 {
    let d = side as f64;
    match random.below(12) {
        0 => random.unit() as f32,
        1 => random.real(-2.0, 3.0) as f32,
        2 => random.real(-2048.0, 2048.0) as f32,
        3..=5 => {
            let t = around_multiple(random, side);
            near(random, t / d)
        }
        6..=8 => {
            let t = around_multiple(random, side) + 0.5;
            near(random, t / d)
        }
        // A fraction that comes out as exactly 1: the product just below a half.
        9 => near(random, (0.5 - f64::powi(2.0, -25)) / d),
        // |u * width| near 2^23.
        10 => random.sign() * ulps(2048.0, -random.between(0, 40)),
        _ => {
            let value = random.pick(&[
                0.0,
                f32::from_bits(1),
                f32::MIN_POSITIVE,
                0.25,
                0.5,
                1.0,
                2.0,
                1024.5,
                2048.0,
            ]);
            random.sign() * value
        }
    }
}

/// Four coordinates.
pub fn coordinates(random: &mut Random, side: u32) -> Lanes {
    std::array::from_fn(|_| coordinate(random, side))
}

/// Steps whose footprint is within a few places of 4^m for some m.
pub fn aimed_steps(random: &mut Random, width: u32, height: u32) -> Lanes {
    let top = width.max(height).ilog2() as i64;
    let m = random.between(0, top + 2) as i32;
    let mut parts: [f64; 4] = std::array::from_fn(|_| if random.one_in(4) { 0.0 } else { random.real(-1.0, 1.0) });
    if random.one_in(6) {
        parts = random.pick(&[
            [1.0, 0.0, 0.0, 1.0],
            [0.0, 1.0, 1.0, 0.0],
            [1.0, 1.0, 0.0, 0.0],
            [1.0, 0.0, 1.0, 0.0],
        ]);
    }
    let squares: f64 = parts.iter().map(|part| part * part).sum();
    let scale = if squares > 0.0 {
        (2.0 * f64::powi(4.0, m) / squares).sqrt()
    } else {
        0.0
    };
    let sides = [width, width, height, height];
    let mut steps: Lanes = std::array::from_fn(|i| (parts[i] * scale / sides[i] as f64) as f32);
    let moved = random.below(4) as usize;
    if steps[moved] != 0.0 {
        steps[moved] = ulps(steps[moved], random.between(-4, 4));
    }
    steps
}

/// Four finite steps.
pub fn steps(random: &mut Random, width: u32, height: u32) -> Lanes {
    match random.below(8) {
        0 => [0.0; 4],
        1 => std::array::from_fn(|_| random.sign() * random.real(-24.0, 4.0).exp2() as f32),
        2 => std::array::from_fn(|_| {
            let value = random.pick(&[
                0.0,
                f32::from_bits(1),
                f32::MIN_POSITIVE,
                1e-30,
                1.0,
                1e16,
                1e19,
                1e30,
                f32::MAX,
            ]);
            random.sign() * value
        }),
        _ => aimed_steps(random, width, height),
    }
}

/// A minor component of a direction whose major one has magnitude 1.
fn minor(random: &mut Random, side: u32) -> f32 {
    let last = (side.max(2) - 1) as f64;
    match random.below(8) {
        0 | 1 => random.real(-1.0, 1.0) as f32,
        // On the border between two texels, and within a few places of it.
        2 | 3 => {
            let border = 2.0 * (random.below(side as u64) as f64 + 0.5) / last - 1.0;
            ulps(border as f32, random.between(-3, 3)).clamp(-1.0, 1.0)
        }
        4 => {
            let middle = 2.0 * random.below(side as u64) as f64 / last - 1.0;
            ulps(middle as f32, random.between(-3, 3)).clamp(-1.0, 1.0)
        }
        // A tie with the major component, or just below one.
        5 => random.sign() * ulps(1.0, -random.between(0, 2)),
        6 => random.sign() * random.pick(&[0.0, f32::from_bits(1), f32::from_bits(7), f32::MIN_POSITIVE, 1e-30]),
        _ => random.sign() * random.real(-30.0, 0.0).exp2() as f32,
    }
}

/// An accepted direction, for a level of these sides.
pub fn direction(random: &mut Random, width: u32, height: u32) -> [f32; 3] {
    loop {
        let side = random.pick(&[width, height]);
        let mut parts = [random.sign(), minor(random, side), minor(random, width.max(height))];
        let turn = random.below(3) as usize;
        parts.rotate_left(turn);
        if random.one_in(2) {
            parts.swap(0, 1);
        }
        let scale = match random.below(8) {
            0 => 60.0,
            1 => -60.0,
            2 => random.between(-60, 60) as f64,
            3 => random.real(-60.0, 60.0),
            _ => 0.0,
        };
        let direction = parts.map(|part| (part as f64 * scale.exp2()) as f32);
        if Document01::direction_taken(direction) {
            return direction;
        }
    }
}

/// A fractional level, finite, around 0 to top.
pub fn fractional_level(random: &mut Random, top: u32) -> f32 {
    match random.below(6) {
        0 | 1 => random.real(-0.5, top as f64 + 1.5) as f32,
        2 => random.between(-1, top as i64 + 1) as f32,
        3 => ulps(random.between(0, top as i64 + 1) as f32, random.between(-2, 2)),
        4 => random.sign() * random.pick(&[0.0, f32::from_bits(1), f32::MIN_POSITIVE, 1e30, f32::MAX]),
        _ => random.real(0.0, top as f64) as f32,
    }
}
