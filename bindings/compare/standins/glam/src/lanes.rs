//! Four lanes at once, each as if it stood alone: by the vector unit on x86-64, lane by lane elsewhere.

#[cfg(not(target_arch = "x86_64"))]
pub use lane_by_lane::*;
#[cfg(target_arch = "x86_64")]
pub use vector_unit::*;

/// Four lanes, as a vector stores them.
#[derive(Clone, Copy, Debug)]
#[repr(C, align(16))]
pub struct Four(pub [f32; 4]);

/// Four truths: all bits of a lane or none.
#[derive(Clone, Copy, PartialEq, Debug)]
#[repr(C, align(16))]
pub struct Truths(pub [u32; 4]);

/// The vector unit: SSE2, which every x86-64 has.
#[cfg(target_arch = "x86_64")]
mod vector_unit {
    use super::{Four, Truths};
    use std::arch::x86_64::*;

    /// From this magnitude on every f32 is a whole number.
    const WHOLE: f32 = 8388608.0;

    #[inline(always)]
    fn of(four: Four) -> __m128 {
        // Both are 16 bytes, aligned to 16; so below.
        unsafe { std::mem::transmute(four) }
    }

    #[inline(always)]
    fn four(v: __m128) -> Four {
        unsafe { std::mem::transmute(v) }
    }

    #[inline(always)]
    fn truths(v: __m128) -> Truths {
        unsafe { std::mem::transmute(v) }
    }

    /// An operation of two vectors that the unit has.
    macro_rules! has {
        ($($name:ident $intrinsic:ident)*) => {
            $(#[inline(always)]
            pub fn $name(a: Four, b: Four) -> Four {
                unsafe { four($intrinsic(of(a), of(b))) }
            })*
        };
    }

    has!(add _mm_add_ps sub _mm_sub_ps mul _mm_mul_ps div _mm_div_ps min _mm_min_ps max _mm_max_ps);

    #[inline(always)]
    pub fn ge(a: Four, b: Four) -> Truths {
        unsafe { truths(_mm_cmpge_ps(of(a), of(b))) }
    }

    #[inline(always)]
    pub fn gt(a: Four, b: Four) -> Truths {
        unsafe { truths(_mm_cmpgt_ps(of(a), of(b))) }
    }

    #[inline(always)]
    pub fn and(a: Truths, b: Truths) -> Truths {
        Truths(std::array::from_fn(|lane| a.0[lane] & b.0[lane]))
    }

    /// The lanes of `a` where it holds, those of `b` elsewhere.
    #[inline(always)]
    pub fn select(holds: Truths, a: Four, b: Four) -> Four {
        unsafe {
            let holds: __m128 = std::mem::transmute(holds);
            four(_mm_or_ps(_mm_and_ps(holds, of(a)), _mm_andnot_ps(holds, of(b))))
        }
    }

    #[inline(always)]
    pub fn abs(a: Four) -> Four {
        unsafe { four(_mm_andnot_ps(_mm_set1_ps(-0.0), of(a))) }
    }

    /// Where the magnitude is below 2^23.
    #[inline(always)]
    fn has_fraction(a: Four) -> Truths {
        gt(Four([WHOLE; 4]), abs(a))
    }

    /// The greatest whole number at most each lane: what truncating leaves, less 1 where that is above.
    #[inline(always)]
    pub fn floor(a: Four) -> Four {
        unsafe {
            let truncated = _mm_cvtepi32_ps(_mm_cvttps_epi32(of(a)));
            let above = _mm_and_ps(_mm_cmpgt_ps(truncated, of(a)), _mm_set1_ps(1.0));
            select(has_fraction(a), four(_mm_sub_ps(truncated, above)), a)
        }
    }

    /// The nearest whole number, a half to the even neighbour: what a sum with 2^23 leaves.
    #[inline(always)]
    pub fn round(a: Four) -> Four {
        unsafe {
            let sign = _mm_and_ps(of(a), _mm_set1_ps(-0.0));
            let far = _mm_or_ps(_mm_set1_ps(WHOLE), sign);
            select(has_fraction(a), four(_mm_sub_ps(_mm_add_ps(of(a), far), far)), a)
        }
    }
}

/// Each lane as if it stood alone.
#[cfg(any(test, not(target_arch = "x86_64")))]
mod lane_by_lane {
    use super::{Four, Truths};
    use std::ops::{Add, Div, Mul, Sub};

    #[inline(always)]
    fn each(a: Four, lane: impl Fn(f32) -> f32) -> Four {
        Four(a.0.map(lane))
    }

    #[inline(always)]
    fn pairs(a: Four, b: Four, lane: impl Fn(f32, f32) -> f32) -> Four {
        Four(std::array::from_fn(|i| lane(a.0[i], b.0[i])))
    }

    #[inline(always)]
    fn holds(a: Four, b: Four, lane: impl Fn(f32, f32) -> bool) -> Truths {
        Truths(std::array::from_fn(|i| if lane(a.0[i], b.0[i]) { u32::MAX } else { 0 }))
    }

    #[inline(always)]
    pub fn add(a: Four, b: Four) -> Four {
        pairs(a, b, f32::add)
    }

    #[inline(always)]
    pub fn sub(a: Four, b: Four) -> Four {
        pairs(a, b, f32::sub)
    }

    #[inline(always)]
    pub fn mul(a: Four, b: Four) -> Four {
        pairs(a, b, f32::mul)
    }

    #[inline(always)]
    pub fn div(a: Four, b: Four) -> Four {
        pairs(a, b, f32::div)
    }

    /// The smaller of two; the second where neither is.
    #[inline(always)]
    pub fn min(a: Four, b: Four) -> Four {
        pairs(a, b, |a, b| if a < b { a } else { b })
    }

    /// The larger of two; the second where neither is.
    #[inline(always)]
    pub fn max(a: Four, b: Four) -> Four {
        pairs(a, b, |a, b| if a > b { a } else { b })
    }

    #[inline(always)]
    pub fn ge(a: Four, b: Four) -> Truths {
        holds(a, b, |a, b| a >= b)
    }

    #[inline(always)]
    pub fn gt(a: Four, b: Four) -> Truths {
        holds(a, b, |a, b| a > b)
    }

    #[inline(always)]
    pub fn and(a: Truths, b: Truths) -> Truths {
        Truths(std::array::from_fn(|lane| a.0[lane] & b.0[lane]))
    }

    #[inline(always)]
    pub fn select(holds: Truths, a: Four, b: Four) -> Four {
        Four(std::array::from_fn(|lane| {
            if holds.0[lane] != 0 {
                a.0[lane]
            } else {
                b.0[lane]
            }
        }))
    }

    #[inline(always)]
    pub fn abs(a: Four) -> Four {
        each(a, f32::abs)
    }

    #[inline(always)]
    pub fn floor(a: Four) -> Four {
        each(a, f32::floor)
    }

    #[inline(always)]
    pub fn round(a: Four) -> Four {
        each(a, f32::round_ties_even)
    }
}

#[cfg(all(test, target_arch = "x86_64"))]
mod tests {
    use super::{lane_by_lane, vector_unit, Four, Truths};

    /// The same numbers; a zero's sign may be another after floor and round.
    fn same(a: Four, b: Four, of: &[Four]) {
        assert!((0..4).all(|i| a.0[i] == b.0[i]), "{a:?} for {b:?}, of {of:?}");
    }

    /// Every 251st f32, and those around every quarter up to 1,000.
    #[test]
    fn floor_and_round_are_the_library_ones() {
        let every = (0..=u32::MAX / 251).map(|i| f32::from_bits(i * 251));
        let near = (-4000..=4000).flat_map(|i| {
            let bits = (i as f32 / 4.0).to_bits();
            [bits.wrapping_sub(1), bits, bits.wrapping_add(1)].map(f32::from_bits)
        });
        for x in every.chain(near).filter(|x| !x.is_nan()) {
            let four = Four([x, -x, x, 0.5]);
            same(vector_unit::floor(four), lane_by_lane::floor(four), &[four]);
            same(vector_unit::round(four), lane_by_lane::round(four), &[four]);
            same(vector_unit::abs(four), lane_by_lane::abs(four), &[four]);
        }
    }

    /// All pairs of some numbers, through every operation of two.
    #[test]
    fn pairs_are_as_lane_by_lane() {
        let some = [
            0.0,
            -0.0,
            1.0,
            -1.0,
            0.3,
            1e-40,
            -7e30,
            f32::MAX,
            f32::MIN_POSITIVE,
            1.0 / 3.0,
            -255.5,
        ];
        type Two = fn(Four, Four) -> Four;
        let operations: [(Two, Two); 6] = [
            (vector_unit::add, lane_by_lane::add),
            (vector_unit::sub, lane_by_lane::sub),
            (vector_unit::mul, lane_by_lane::mul),
            (vector_unit::div, lane_by_lane::div),
            (vector_unit::min, lane_by_lane::min),
            (vector_unit::max, lane_by_lane::max),
        ];
        for x in some {
            for y in some {
                let (a, b) = (Four([x, y, 1.0, -x]), Four([y, x, x, y]));
                for (unit, lanes) in operations {
                    assert_eq!(
                        unit(a, b).0.map(f32::to_bits),
                        lanes(a, b).0.map(f32::to_bits),
                        "{a:?} {b:?}"
                    );
                }
                assert_eq!(vector_unit::ge(a, b), lane_by_lane::ge(a, b));
                assert_eq!(vector_unit::gt(a, b), lane_by_lane::gt(a, b));
                let holds = Truths([u32::MAX, 0, 0, u32::MAX]);
                same(
                    vector_unit::select(holds, a, b),
                    lane_by_lane::select(holds, a, b),
                    &[a, b],
                );
                assert_eq!(vector_unit::and(holds, holds), lane_by_lane::and(holds, holds));
            }
        }
    }
}
