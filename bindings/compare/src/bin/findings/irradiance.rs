//! The coefficients: how far the source's are, what f32 sums leave of a white cubemap, and what reducing first does to them.

use crate::cubes::Cube;
use std::f64::consts::PI;
use swathecold_compare::plain::Document01;
use swathecold_compare::random::Random;
use swathecold_compare::reading::Reading;
#[cfg(source)]
use swathecold_compare::source::Source;
use swathecold_compare::unit::Unit;

/// The plain reading.
const READING: Reading<Document01> = Reading::NEW;

/// Places of a bright texel that are drawn.
#[cfg(source)]
const DRAWN: usize = 100;

/// Of the twelve the largest difference, over the first coefficient of the same colour.
#[cfg(source)]
fn distance(cube: &Cube) -> f64 {
    let source = cube.coefficients(&Source::default());
    let plain = cube.coefficients(&READING);
    let far = |i: usize| (source[i] as f64 - plain[i] as f64).abs() / plain[i % 3] as f64;
    (0..12).map(far).fold(0.0, f64::max)
}

/// The source's coefficients beside the plain reading's.
#[cfg(source)]
pub fn from_source() {
    let mut random = Random::of(1, "findings");
    println!(
        "How far the source's irradiance is: the largest difference over the first coefficient of the same colour."
    );
    let studio = Cube::studio();
    println!("the studio, {} square: {:.1e}", studio.side, distance(&studio));
    println!("\n| side | white | one colour | one bright texel: a corner | an edge | a centre | anywhere |");
    println!("|--:|--:|--:|--:|--:|--:|--:|");
    for side in [1, 2, 3, 16, 64, 256] {
        let bright = |face: u32, x: u32, y: u32| distance(&Cube::of(side, 0xFF).with(face, x, y, 0xFFFF_FFFF));
        let on_faces = |x: u32, y: u32| (0..6).map(|face| bright(face, x, y)).fold(0.0, f64::max);
        let drawn = (0..DRAWN).map(|_| {
            let mut below = |n: u32| random.below(n as u64) as u32;
            bright(below(6), below(side), below(side))
        });
        let (middle, last) = (side / 2, side - 1);
        let columns = [
            distance(&Cube::of(side, 0xFFFF_FFFF)),
            distance(&Cube::of(side, 0xBB3F_7FFF)),
            on_faces(0, 0).max(on_faces(last, last)),
            on_faces(0, middle).max(on_faces(middle, last)),
            on_faces(middle, middle),
            drawn.fold(0.0, f64::max),
        ];
        println!("| {side} | {} |", columns.map(|far| format!("{far:.1e}")).join(" | "));
    }
}

/// The first coefficient of a white cubemap, over pi: 1 where nothing is rounded and the texels are many.
fn first_over_pi(sh: [f32; 12]) -> f64 {
    sh[0] as f64 / PI
}

/// Who is asked: the plain reading, the unit where it was linked, the source where it was given.
fn asked() -> Vec<(&'static str, Box<dyn Unit>)> {
    vec![
        ("plain reading", Box::new(READING)),
        #[cfg(feature = "unit")]
        ("unit", Box::new(swathecold_compare::boundary::Boundary)),
        #[cfg(source)]
        ("source", Box::new(Source::default())),
    ]
}

/// White cubemaps from 16 to 4096 square.
pub fn white_cubes() {
    println!("The first coefficient of a white cubemap, over pi.\n");
    let asked = asked();
    let names: Vec<&str> = asked.iter().map(|(name, _)| *name).collect();
    println!("| side | {} |\n|--:|{}", names.join(" | "), "--:|".repeat(names.len()));
    for side in [16, 64, 128, 256, 512, 1024, 2048, 4096] {
        let cube = Cube::of(side, 0xFFFF_FFFF);
        let by = |unit: &dyn Unit| format!("{:.6}", first_over_pi(cube.coefficients(unit)));
        let columns: Vec<String> = asked.iter().map(|(_, unit)| by(&**unit)).collect();
        println!("| {side} | {} |", columns.join(" | "));
    }
}

/// What f32 sums cost: of the twelve the largest difference from sums in f64, over the first coefficient of the same colour.
pub fn rounded_sums() {
    let mut random = Random::of(1, "sums");
    println!(
        "How far f32 sums are from f64 sums: the largest difference over the first coefficient of the same colour.\n"
    );
    println!("| side | white | without a pattern |\n|--:|--:|--:|");
    for side in [16, 64, 128, 256, 512, 1024, 2048, 4096] {
        let far = |cube: &Cube| {
            let (rounded, sums) = (cube.coefficients(&READING), cube.sums());
            let constant = |i: usize| {
                if i < 3 {
                    PI * 0.282095
                } else {
                    2.0 * PI / 3.0 * 0.488603
                }
            };
            let exact: [f64; 12] = std::array::from_fn(|i| sums[i] * constant(i));
            let off = |i: usize| (rounded[i] as f64 - exact[i]).abs() / exact[i % 3];
            (0..12).map(off).fold(0.0, f64::max)
        };
        let (white, drawn) = (Cube::of(side, 0xFFFF_FFFF), Cube::drawn(side, &mut random));
        println!("| {side} | {:.1e} | {:.1e} |", far(&white), far(&drawn));
    }
}

/// What the levels of a cubemap give in the place of level 0.
pub fn reduced_levels() {
    let reduced = Cube::of(4096, 0xFFFF_FFFF).levels().remove(4);
    let white = first_over_pi(reduced.coefficients(&READING));
    println!(
        "A white cubemap of 4096 square, at its level of {} square: {white:.6}\n",
        reduced.side
    );
    println!("The first coefficients of the studio's levels, each from that of level 0.\n");
    println!("| side | red | green | blue |\n|--:|--:|--:|--:|");
    let levels = Cube::studio().levels();
    let whole = levels[0].coefficients(&READING);
    for level in &levels {
        let sh = level.coefficients(&READING);
        let off = |channel: usize| format!("{:+.3} %", 100.0 * (sh[channel] as f64 / whole[channel] as f64 - 1.0));
        println!("| {} | {} | {} | {} |", level.side, off(0), off(1), off(2));
    }
}
