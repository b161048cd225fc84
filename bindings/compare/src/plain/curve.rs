//! The table T: the f32 nearest the exact curve at each byte, worked out over whole numbers.

use super::whole::Whole;
use std::cmp::Ordering;
use std::sync::OnceLock;

/// An exact place on the curve: the number whose `power`-th power is numerator / denominator.
struct Exact {
    power: u32,
    numerator: Whole,
    denominator: Whole,
}

/// 100k/329460 for k up to 10, above that the number whose fifth power is ((1000k + 14025)/269025)^12.
fn exact(k: u64) -> Exact {
    if k <= 10 {
        Exact {
            power: 1,
            numerator: Whole::of(100 * k),
            denominator: Whole::of(329460),
        }
    } else {
        Exact {
            power: 5,
            numerator: Whole::of(1000 * k + 14025).power(12),
            denominator: Whole::of(269025).power(12),
        }
    }
}

/// How the number significand / 2^shift stands to an exact place.
fn compare(significand: u64, shift: u32, exact: &Exact) -> Ordering {
    let left = Whole::of(significand).power(exact.power).times(&exact.denominator);
    let right = Whole::of(2).power(shift * exact.power).times(&exact.numerator);
    left.cmp(&right)
}

/// A positive normal f32 as significand / 2^shift, with one binary digit to spare.
fn doubled(value: f32) -> (u64, u32) {
    let exponent = value.to_bits() >> 23;
    let significand = (value.to_bits() & 0x7F_FFFF | 0x80_0000) as u64;
    (2 * significand, 127 + 23 + 1 - exponent)
}

/// The f32 nearest an exact place in 0 to 1; a tie goes to the even one.
fn nearest(exact: &Exact) -> f32 {
    let at_most = |bits: u32| {
        let (significand, shift) = doubled(f32::from_bits(bits));
        compare(significand, shift, exact) != Ordering::Greater
    };
    // The greatest f32 at most the place: between 2^-24, which is, and the next above 1, which is not.
    let (mut below, mut above) = (f32::powi(2.0, -24).to_bits(), 1.0f32.to_bits() + 1);
    while below + 1 < above {
        let middle = below + (above - below) / 2;
        if at_most(middle) {
            below = middle;
        } else {
            above = middle;
        }
    }
    // The middle between it and the next above, which have the same step between them.
    let (significand, shift) = doubled(f32::from_bits(below));
    let upward = match compare(significand + 1, shift, exact) {
        Ordering::Less => true,
        Ordering::Greater => false,
        Ordering::Equal => below % 2 == 1,
    };
    f32::from_bits(if upward { below + 1 } else { below })
}

/// The 256 decoded values stand in one table.
pub fn decoded_table() -> &'static [f32; 256] {
    static TABLE: OnceLock<[f32; 256]> = OnceLock::new();
    TABLE.get_or_init(|| std::array::from_fn(|k| if k == 0 { 0.0 } else { nearest(&exact(k as u64)) }))
}

/// T(k).
pub fn decoded(byte: u32) -> f32 {
    decoded_table()[byte as usize]
}

#[cfg(test)]
mod tests {
    use super::{decoded, decoded_table};

    #[test]
    fn the_table_grows_from_0_to_1() {
        assert_eq!(decoded(0).to_bits(), 0);
        assert_eq!(decoded(255), 1.0);
        assert!(decoded_table().windows(2).all(|pair| pair[0] < pair[1]));
    }

    /// The curve in f64 is within a part in 10^14 of the exact one, far less than half a step of f32.
    #[test]
    fn the_table_is_near_the_curve() {
        for k in 0..256u32 {
            let c = k as f64 / 255.0;
            let exact = if k <= 10 {
                c / 12.92
            } else {
                ((c + 0.055) / 1.055).powf(2.4)
            };
            let t = decoded(k);
            let step = f32::from_bits(t.to_bits() + 1) - t;
            assert!((t as f64 - exact).abs() <= 0.5001 * step as f64, "T({k})");
        }
    }
}
