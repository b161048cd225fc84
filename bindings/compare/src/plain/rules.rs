//! The sentences that each fix one small rule: document 01's, or that of document 02's request which has changed it. A deliberate
//! slip replaces one of them.

use super::check::{Verdict, FOLLOWS};
use super::curve::decoded_table;
use super::wrap::Wrap;
use super::NEAREST;
use std::ops::RangeInclusive;

/// The axis of the largest component.
#[derive(Clone, Copy, PartialEq, Debug)]
pub enum Axis {
    X,
    Y,
    Z,
}

/// Document 01's small rules.
pub trait Rules {
    /// Order: 1, 2, 3, 8, 15, 4, 6, 7, 5 (T-03: 9 is retired; T-06: 15 after 8).
    const ORDER: [u32; 9] = [1, 2, 3, 8, 15, 4, 6, 7, 5];

    /// Face places in faces (column, row), in layout order.
    const CROSS: [(u32, u32); 6] = [(2, 1), (0, 1), (1, 0), (1, 2), (1, 1), (3, 1)];

    /// T-01: wrap code 0, not given, means Repeat.
    const NOT_GIVEN: Wrap = Wrap::Repeat;

    /// T-07: level 0 follows, since no level comes before it.
    const OF_LEVEL_0: Verdict = FOLLOWS;

    /// Level m has sides max(1, side shifted right by m).
    fn level_side(side: u32, m: u32) -> u32 {
        side.checked_shr(m).unwrap_or(0).max(1)
    }

    /// Each level is made from the one before: the level that level m is made from.
    fn made_from(m: u32) -> u32 {
        m - 1
    }

    /// Unpack: byte / 255.0.
    fn unpack(byte: u32) -> f32 {
        byte as f32 / 255.0
    }

    /// Pack: value * 255.0, truncated; T-06: in nearest mode that product is rounded.
    fn pack(mode: u32, value: f32) -> u32 {
        let product = value * 255.0;
        if mode == NEAREST {
            Self::rounded(product)
        } else {
            product as u32
        }
    }

    /// T-06: nearest with a half upward, floor(p + 1/2) of the product p.
    fn rounded(product: f32) -> u32 {
        // Twice an f32 is an f32 again, so nothing is rounded here: n is the whole part of 2p, and floor(p + 1/2) is
        // floor((n + 1) / 2), half of n taken upward.
        let n = (product * 2.0) as u32;
        n.div_ceil(2)
    }

    /// T-06: of SRGB only alpha follows the mode: the one that it is packed by.
    fn mode_of_alpha(mode: u32) -> u32 {
        mode
    }

    /// x1 = min(x0+1, previous width - 1), y1 likewise.
    fn second(first: u32, previous_side: u32) -> u32 {
        (first + 1).min(previous_side - 1)
    }

    /// Sums run p00, p10, p01, p11, left to right, then / 4.0.
    fn mean(p: [f32; 4]) -> f32 {
        (((p[0] + p[1]) + p[2]) + p[3]) / 4.0
    }

    /// Normal: p*2 - 1, mean, (mean + 1) / 2.
    fn normal(p: [f32; 4]) -> f32 {
        (Self::mean(p.map(|p| p * 2.0 - 1.0)) + 1.0) / 2.0
    }

    /// The square root, correctly rounded, of the mean of squares.
    fn root_mean_square(p: [f32; 4]) -> f32 {
        Self::mean(p.map(|p| p * p)).sqrt()
    }

    /// MetallicRoughness: red and alpha of p00; T-06: in either mode.
    fn taken_over(p: [u32; 4], _mode: u32) -> u32 {
        p[0]
    }

    /// The greatest k with T(k) at most the mean; T-06: in either mode.
    fn encoded(mean: f32, _mode: u32) -> u32 {
        // T grows with k and T(0) = 0, so the k with T(k) at most the mean are 0 up to the greatest.
        decoded_table().partition_point(|t| *t <= mean) as u32 - 1
    }

    /// Texel (x, y) of a cut is the texel at (corner x + x, corner y + y): one of the two.
    fn cut_place(corner: u32, place: u32) -> u32 {
        corner + place
    }

    /// A coordinate is refused when it is not finite or its magnitude is above 2,048.
    fn coordinate_taken(coordinate: f32) -> bool {
        coordinate.is_finite() && coordinate.abs() <= 2048.0
    }

    /// A direction is refused when a component is not finite, or the largest magnitude is below 2^-60 or above 2^60.
    fn direction_taken(direction: [f32; 3]) -> bool {
        let least = f32::powi(2.0, -60);
        let most = f32::powi(2.0, 60);
        let largest = direction.iter().fold(0.0f32, |l, c| l.max(c.abs()));
        direction.iter().all(|c| c.is_finite()) && largest >= least && largest <= most
    }

    /// Repeat: the remainder of t by d in 0..d-1.
    fn repeat(t: i64, d: i64) -> i64 {
        t.rem_euclid(d)
    }

    /// Clamp: t held to 0..d-1.
    fn clamp(t: i64, d: i64) -> i64 {
        t.max(0).min(d - 1)
    }

    /// Mirrored: r the remainder by 2d, then min(r, 2d - r, d - 1).
    fn mirrored(t: i64, d: i64) -> i64 {
        let r = t.rem_euclid(2 * d);
        r.min(2 * d - r).min(d - 1)
    }

    /// footprint = ((X*X + Z*Z) + (Y*Y + W*W)) * 0.5.
    fn footprint(x: f32, y: f32, z: f32, w: f32) -> f32 {
        ((x * x + z * z) + (y * y + w * w)) * 0.5
    }

    /// A level lowered to the top level.
    fn lowered(level: u32, top: u32) -> u32 {
        level.min(top)
    }

    /// Nearest: t = floor(u * width).
    fn texel_number(coordinate: f32, side: f32) -> i64 {
        (coordinate * side).floor() as i64
    }

    /// x_f = u * width - 0.5.
    fn bilinear_place(coordinate: f32, side: f32) -> f32 {
        coordinate * side - 0.5
    }

    /// fx = x_f - x0 (it may be exactly 1).
    fn fraction(place: f32, floor: f32) -> f32 {
        place - floor
    }

    /// RGB adds p00, p10, p01, p11, each times its weight product, left to right.
    fn blend_colour(p: [f32; 4], fx: f32, fy: f32) -> f32 {
        let (gx, gy) = (1.0 - fx, 1.0 - fy);
        ((p[0] * (gx * gy) + p[1] * (fx * gy)) + p[2] * (gx * fy)) + p[3] * (fx * fy)
    }

    /// Alpha blends along x first and then along y.
    fn blend_alpha(p: [f32; 4], fx: f32, fy: f32) -> f32 {
        let (gx, gy) = (1.0 - fx, 1.0 - fy);
        let row0 = p[0] * gx + p[1] * fx;
        let row1 = p[2] * gx + p[3] * fx;
        row0 * gy + row1 * fy
    }

    /// X if |x| >= |y| and |x| >= |z|; else Y if |y| > |x| and |y| >= |z|; else Z.
    fn axis([x, y, z]: [f32; 3]) -> Axis {
        let (x, y, z) = (x.abs(), y.abs(), z.abs());
        if x >= y && x >= z {
            Axis::X
        } else if y > x && y >= z {
            Axis::Y
        } else {
            Axis::Z
        }
    }

    /// (u, v) before scaling: (-z*sx, -y), (x, z*sy), (x*sz, -y).
    fn before_scaling(axis: Axis, [x, y, z]: [f32; 3]) -> (f32, f32) {
        match axis {
            Axis::X => (-z * sign(x), -y),
            Axis::Y => (x, z * sign(y)),
            Axis::Z => (x * sign(z), -y),
        }
    }

    /// Then 0.5 * (q/major + 1).
    fn scaled(q: f32, major: f32) -> f32 {
        0.5 * (q / major + 1.0)
    }

    /// The nearest whole number, a half to the even neighbour.
    fn nearest_place(value: f32) -> u32 {
        let below = value.floor();
        let part = value - below;
        let even = below as u32 % 2 == 0;
        if part > 0.5 || (part == 0.5 && !even) {
            below as u32 + 1
        } else {
            below as u32
        }
    }

    /// Trilinear: c0 + (c1 - c0) * t.
    fn between_levels(c0: f32, c1: f32, t: f32) -> f32 {
        c0 + (c1 - c0) * t
    }

    /// T-02: tiles go row by row, ceil(width/16) a row: which one stands in this column and row.
    fn tile_number(width: u32, column: u32, row: u32) -> usize {
        row as usize * width.div_ceil(16) as usize + column as usize
    }

    /// T-02: the smallest value before the largest.
    fn smallest_and_largest(values: &[u8]) -> [u8; 2] {
        let smallest = values.iter().fold(255, |a, b| a.min(*b));
        let largest = values.iter().fold(0, |a, b| a.max(*b));
        [smallest, largest]
    }

    /// T-02: a replacement brings the tile up to date: its own range stands there, whatever stood there before.
    fn brought_up_to_date(_before: [u8; 8], _texel: u32, own: [u8; 8]) -> [u8; 8] {
        own
    }

    /// T-04: row and column order: the column and the row of a face's texel of this number.
    fn place_in_face(number: u32, width: u32, _height: u32) -> (u32, u32) {
        (number % width, number / width)
    }

    /// T-04: u = ((x + 0.5) / width) * 2.0 - 1.0, and v of y and the height likewise.
    fn centre(x: u32, y: u32, width: f32, height: f32) -> (f32, f32) {
        let along = |place: u32, side: f32| ((place as f32 + 0.5) / side) * 2.0 - 1.0;
        (along(x, width), along(y, height))
    }

    /// T-04: d = 1 + u*u + v*v.
    fn squared_length(u: f32, v: f32) -> f32 {
        (1.0 + u * u) + v * v
    }

    /// T-04: the weight's divisor is d times the rounded root of d.
    fn weight(texel_omega: f32, d: f32, root: f32) -> f32 {
        texel_omega / (d * root)
    }

    /// T-04: a direction is divided by that root.
    fn divided(component: f32, root: f32) -> f32 {
        component / root
    }

    /// T-04: the basis of a direction, as the source has it.
    fn basis([x, y, z]: [f32; 3]) -> [f32; 4] {
        [0.282095, 0.488603 * y, 0.488603 * z, 0.488603 * x]
    }

    /// T-04: what a texel adds to a sum, as the source has it: colour * (basis * weight).
    fn added(colour: f32, basis: f32, weight: f32) -> f32 {
        colour * (basis * weight)
    }

    /// T-07: the verdict on a level is about that level: those that are judged for it.
    fn judged_for(level: u32) -> RangeInclusive<u32> {
        level..=level
    }

    /// T-07: given its predecessor, which is taken as it is found: the levels that are made again to judge level m.
    fn made_again_for(m: u32) -> RangeInclusive<u32> {
        m..=m
    }

    /// T-07: by the mode that is given.
    fn mode_of_check(mode: u32) -> u32 {
        mode
    }

    /// T-07: every texel of a level is judged, up to the chain's last: where those of a level end.
    fn judged_end(end_of_level: usize, _end_of_chain: usize) -> usize {
        end_of_level
    }

    /// T-07: a texel follows exactly if it is the one that 01's rules make.
    fn is_wrong(found: u32, made: u32) -> bool {
        found != made
    }

    /// T-07: the first wrong texel is the one whose place is smallest.
    fn first_wrong(places: &[usize]) -> Option<usize> {
        places.iter().copied().min()
    }

    /// T-07: a place is counted in layout order, from the chain's first texel on.
    fn place_of(place: usize, _start_of_level: usize) -> usize {
        place
    }
}

/// The sign that goes with a face: a component >= 0 (also -0) takes the even face.
pub fn sign(component: f32) -> f32 {
    if component >= 0.0 {
        1.0
    } else {
        -1.0
    }
}

/// The rules as document 01 states them, with what document 02 has changed since.
pub struct Document01;

impl Rules for Document01 {}
