//! Deliberate slips, each in one rule of the plain reading. The comparison is tried on them: it must see every one.

use crate::plain::{decoded, Axis, Document01, Rules, Verdict, Wrap, NEAREST, TRUNCATING};
use crate::random::ulps;
use crate::reading::Reading;
use crate::unit::Unit;
use std::ops::RangeInclusive;

/// A slip: rules that are 01's but for what is given.
macro_rules! slips {
    ($($(#[$text:meta])* $name:ident { $($rule:item)* })*) => {
        $($(#[$text])* pub struct $name;

        impl Rules for $name { $($rule)* })*

        /// Every slip by its name, as a unit.
        pub fn all() -> Vec<(&'static str, Box<dyn Unit>)> {
            vec![$((stringify!($name), Box::new(Reading::<$name>::NEW))),*]
        }
    };
}

slips! {
    /// Unpacking by a product with 1/255.
    UnpackByProduct { fn unpack(byte: u32) -> f32 { byte as f32 * (1.0 / 255.0) } }

    /// Rounding in the pack.
    RoundingPack { fn pack(_mode: u32, value: f32) -> u32 { (value * 255.0 + 0.5) as u32 } }

    /// Keeping the third column of a 3-wide level.
    ThirdColumn {
        fn second(first: u32, previous_side: u32) -> u32 {
            if first + 3 == previous_side { first + 2 } else { Document01::second(first, previous_side) }
        }
    }

    /// Sides halved upward.
    SidesUpward {
        fn level_side(side: u32, m: u32) -> u32 { (0..m.min(32)).fold(side, |side, _| side.div_ceil(2)).max(1) }
    }

    /// Every level from level 0.
    FromLevel0 { fn made_from(_m: u32) -> u32 { 0 } }

    /// Sums in pairs.
    SumsInPairs { fn mean(p: [f32; 4]) -> f32 { ((p[0] + p[1]) + (p[2] + p[3])) / 4.0 } }

    /// Treating Normal as a plain mean.
    NormalAsMean { fn normal(p: [f32; 4]) -> f32 { Self::mean(p) } }

    /// Roughness as a plain mean.
    RoughnessAsMean { fn root_mean_square(p: [f32; 4]) -> f32 { Self::mean(p) } }

    /// The root one place too small.
    RootFromBelow {
        fn root_mean_square(p: [f32; 4]) -> f32 { ulps(Document01::root_mean_square(p), -1) }
    }

    /// SRGB: the k whose T(k) is nearest the mean.
    NearestOnCurve {
        fn encoded(mean: f32, mode: u32) -> u32 {
            let below = Document01::encoded(mean, mode);
            let above = (below + 1).min(255);
            if decoded(above) - mean < mean - decoded(below) { above } else { below }
        }
    }

    /// A cut that forgets its corner.
    CornerForgotten { fn cut_place(_corner: u32, place: u32) -> u32 { place } }

    /// A cross with +Y and -Y exchanged.
    CrossOrder { const CROSS: [(u32, u32); 6] = [(2, 1), (0, 1), (1, 2), (1, 0), (1, 1), (3, 1)]; }

    /// Refusal 4 before 8.
    FourBeforeEight { const ORDER: [u32; 9] = [1, 2, 3, 4, 8, 15, 6, 7, 5]; }

    /// Refusal 5 before 6 and 7, in the order of the numbers.
    FiveBeforeSix { const ORDER: [u32; 9] = [1, 2, 3, 8, 15, 4, 5, 6, 7]; }

    /// Coordinate 2048 refused.
    CoordinateLimit { fn coordinate_taken(coordinate: f32) -> bool { coordinate.abs() < 2048.0 } }

    /// A largest magnitude of 2^-60 refused.
    DirectionLimit {
        fn direction_taken(d: [f32; 3]) -> bool {
            Document01::direction_taken(d) && d.iter().any(|c| c.abs() > f32::powi(2.0, -60))
        }
    }

    /// Code 0 as ClampToEdge.
    NotGivenClamps { const NOT_GIVEN: Wrap = Wrap::ClampToEdge; }

    /// Repeat by the remainder of the magnitude.
    RepeatOfMagnitude { fn repeat(t: i64, d: i64) -> i64 { t.abs() % d } }

    /// Mirroring as OpenGL does.
    MirrorAsOpenGl {
        fn mirrored(t: i64, d: i64) -> i64 {
            let r = t.rem_euclid(2 * d);
            r.min(2 * d - 1 - r)
        }
    }

    /// Mirroring with no d - 1: the side itself as a place.
    SideItself {
        fn mirrored(t: i64, d: i64) -> i64 {
            let r = t.rem_euclid(2 * d);
            r.min(2 * d - r)
        }
    }

    /// Texel numbers cut towards zero.
    NumberTowardsZero { fn texel_number(coordinate: f32, side: f32) -> i64 { (coordinate * side) as i64 } }

    /// The footprint's sum in the order of the steps.
    FootprintOrder {
        fn footprint(x: f32, y: f32, z: f32, w: f32) -> f32 { ((x * x + y * y) + (z * z + w * w)) * 0.5 }
    }

    /// The footprint rounded only at the end.
    FootprintRoundedOnce {
        fn footprint(x: f32, y: f32, z: f32, w: f32) -> f32 {
            let [x, y, z, w] = [x, y, z, w].map(f64::from);
            (((x * x + z * z) + (y * y + w * w)) * 0.5) as f32
        }
    }

    /// The footprint as the larger of the two squared lengths.
    FootprintLarger {
        fn footprint(x: f32, y: f32, z: f32, w: f32) -> f32 { (x * x + z * z).max(y * y + w * w) }
    }

    /// A level lowered to one above the top level.
    LevelAboveTop { fn lowered(level: u32, top: u32) -> u32 { level.min(top + 1) } }

    /// The half taken off before scaling.
    HalfBeforeScaling { fn bilinear_place(coordinate: f32, side: f32) -> f32 { (coordinate - 0.5 / side) * side } }

    /// A fraction held below 1.
    FractionBelow1 { fn fraction(place: f32, floor: f32) -> f32 { (place - floor).min(ulps(1.0, -1)) } }

    /// p10 and p01 exchanged.
    CornersExchanged {
        fn blend_colour(p: [f32; 4], fx: f32, fy: f32) -> f32 {
            Document01::blend_colour([p[0], p[2], p[1], p[3]], fx, fy)
        }
    }

    /// Colour blended as alpha is, along x first and then along y.
    ColourAsAlpha {
        fn blend_colour(p: [f32; 4], fx: f32, fy: f32) -> f32 { Document01::blend_alpha(p, fx, fy) }
    }

    /// Alpha blended along y first.
    AlphaAlongY {
        fn blend_alpha(p: [f32; 4], fx: f32, fy: f32) -> f32 {
            Document01::blend_alpha([p[0], p[2], p[1], p[3]], fy, fx)
        }
    }

    /// Letting Y win ties against X.
    TiesToY {
        fn axis([x, y, z]: [f32; 3]) -> Axis {
            let (x, y, z) = (x.abs(), y.abs(), z.abs());
            if y >= x && y >= z { Axis::Y } else if x >= z { Axis::X } else { Axis::Z }
        }
    }

    /// The -X face not turned.
    FaceNotTurned {
        fn before_scaling(axis: Axis, d: [f32; 3]) -> (f32, f32) {
            if axis == Axis::X { (-d[2], -d[1]) } else { Document01::before_scaling(axis, d) }
        }
    }

    /// A product with 1/major.
    ScaledByProduct { fn scaled(q: f32, major: f32) -> f32 { 0.5 * (q * (1.0 / major) + 1.0) } }

    /// A half upward.
    HalfUpward { fn nearest_place(value: f32) -> u32 { (value + 0.5).floor() as u32 } }

    /// Trilinear by two weights.
    TwoWeights { fn between_levels(c0: f32, c1: f32, t: f32) -> f32 { c0 * (1.0 - t) + c1 * t } }

    /// Tile columns by floor(width/16).
    ColumnsDownward {
        fn tile_number(width: u32, column: u32, row: u32) -> usize { (row * (width / 16) + column) as usize }
    }

    /// The largest value before the smallest.
    LargestFirst {
        fn smallest_and_largest(values: &[u8]) -> [u8; 2] {
            let [smallest, largest] = Document01::smallest_and_largest(values);
            [largest, smallest]
        }
    }

    /// A replacement that widens the range by its texel instead of working it out.
    RangeWidened {
        fn brought_up_to_date(before: [u8; 8], texel: u32, _own: [u8; 8]) -> [u8; 8] {
            let byte = |k: usize| texel.to_be_bytes()[k / 2];
            std::array::from_fn(|k| if k % 2 == 0 { before[k].min(byte(k)) } else { before[k].max(byte(k)) })
        }
    }

    /// A column before its row.
    ColumnsBeforeRows {
        fn place_in_face(number: u32, _width: u32, height: u32) -> (u32, u32) { (number / height, number % height) }
    }

    /// U from the height.
    UFromHeight {
        fn centre(x: u32, y: u32, _width: f32, height: f32) -> (f32, f32) { Document01::centre(x, y, height, height) }
    }

    /// U*u + v*v first.
    OneAddedLast { fn squared_length(u: f32, v: f32) -> f32 { u * u + v * v + 1.0 } }

    /// The weight's divisor d times d.
    WeightBySquare { fn weight(texel_omega: f32, d: f32, _root: f32) -> f32 { texel_omega / (d * d) } }

    /// A direction times 1/root.
    DirectionByProduct { fn divided(component: f32, root: f32) -> f32 { component * (1.0 / root) } }

    /// Y and z exchanged in the basis.
    BasisExchanged { fn basis([x, y, z]: [f32; 3]) -> [f32; 4] { Document01::basis([x, z, y]) } }

    /// The colour times the basis first.
    ColourTimesBasis { fn added(colour: f32, basis: f32, weight: f32) -> f32 { (colour * basis) * weight } }

    /// The mode ignored.
    ModeIgnored { fn pack(_mode: u32, value: f32) -> u32 { Document01::pack(TRUNCATING, value) } }

    /// Nearest with a half downward.
    HalfDownward { fn rounded(product: f32) -> u32 { (product * 2.0).ceil() as u32 / 2 } }

    /// Nearest with a half to the even neighbour.
    HalfToEven { fn rounded(product: f32) -> u32 { product.round_ties_even() as u32 } }

    /// The half added in f32.
    HalfAddedInF32 { fn rounded(product: f32) -> u32 { (product + 0.5) as u32 } }

    /// SRGB colour by the mode.
    ColourByMode {
        fn encoded(mean: f32, mode: u32) -> u32 {
            if mode == NEAREST { NearestOnCurve::encoded(mean, mode) } else { Document01::encoded(mean, mode) }
        }
    }

    /// SRGB's alpha truncated in nearest mode.
    AlphaTruncated { fn mode_of_alpha(_mode: u32) -> u32 { TRUNCATING } }

    /// Red and alpha of p10 in nearest mode.
    TakenFromP10 { fn taken_over(p: [u32; 4], mode: u32) -> u32 { if mode == NEAREST { p[1] } else { p[0] } } }

    /// Refusal 15 before 3.
    FifteenBeforeThree { const ORDER: [u32; 9] = [1, 2, 15, 3, 8, 4, 6, 7, 5]; }

    /// A level judged by the chain worked out afresh from level 0.
    JudgedAfresh { fn made_again_for(m: u32) -> RangeInclusive<u32> { 1..=m } }

    /// A level judged together with those before it.
    LevelsBeforeJudged { fn judged_for(level: u32) -> RangeInclusive<u32> { 0..=level } }

    /// Level 0 as one that does not follow.
    Level0Wrong { const OF_LEVEL_0: Verdict = [0, 0]; }

    /// The chain's last texel left out.
    LastTexelLeftOut { fn judged_end(end_of_level: usize, end_of_chain: usize) -> usize { end_of_level.min(end_of_chain - 1) } }

    /// The largest place of a wrong texel.
    LargestPlace { fn first_wrong(places: &[usize]) -> Option<usize> { places.iter().copied().max() } }

    /// A place counted within its level.
    PlaceInLevel { fn place_of(place: usize, start_of_level: usize) -> usize { place - start_of_level } }

    /// Judged as if truncated, whatever the mode.
    CheckTruncates { fn mode_of_check(_mode: u32) -> u32 { TRUNCATING } }

    /// A channel that is one off taken for right.
    OneOffTaken {
        fn is_wrong(found: u32, made: u32) -> bool {
            found.to_be_bytes().iter().zip(made.to_be_bytes()).any(|(a, b)| a.abs_diff(b) > 1)
        }
    }

    /// Refusal 6 before 15.
    SixBeforeFifteen { const ORDER: [u32; 9] = [1, 2, 3, 8, 4, 6, 15, 7, 5]; }
}
