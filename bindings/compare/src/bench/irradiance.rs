//! Irradiance coefficients, with a plain loop of the same definition as the floor.

use super::{number, ratio, time, Best, Row};
use crate::plain::{decoded_table, folded, on_cube, Lent, CUBEMAP};
use crate::random::Random;
use crate::unit::Unit;
use std::hint::black_box;

/// The side at which there is a goal, and the goal: so many times the plain loop's time.
const GOAL: (u32, f64) = (256, 1.5);

/// Sides of the cubemaps: that of the goal, a smaller and a larger one.
const SIDES: [u32; 3] = [GOAL.0, 16, 1024];

/// The rows as a table of times and of the ratio to the plain loop.
pub fn table(unit: &dyn Unit, name: &str, random: &mut Random, rounds: usize) -> String {
    let mut text = format!("## Irradiance\n\n| | {name} / plain loop | goal | {name} | plain loop |\n");
    text += "|---|--:|--:|--:|--:|\n";
    for side in SIDES {
        let row: Best = coefficients(unit, random, side).best(rounds);
        text += &format!(
            "| {} | {} | {} | {} | {} |\n",
            row.name,
            ratio(row.unit, row.floor),
            number((side == GOAL.0).then_some(GOAL.1)),
            number(row.unit),
            number(row.floor)
        );
    }
    text + "\nTimes in nanoseconds a texel of level 0.\n"
}

/// The coefficients of a square cubemap, over and over while it is small; a thing is a texel.
fn coefficients<'a>(unit: &'a dyn Unit, random: &mut Random, side: u32) -> Row<'a> {
    let texels: Vec<u32> = (0..6 * side * side).map(|_| random.next() as u32).collect();
    let times = (GOAL.0 / side).pow(2).max(1);
    let same = texels.clone();
    Row {
        name: format!("irradiance_sh4, {side} square x 6"),
        count: times as u64 * texels.len() as u64,
        unit: Some(Box::new(move || {
            let picture = Lent {
                kind: CUBEMAP,
                width: side,
                height: side,
                texels: &texels,
            };
            let mut sh = [0.0; 12];
            time(|| {
                for _ in 0..times {
                    black_box(unit.irradiance_sh4(&picture, black_box(&mut sh)));
                }
            })
        })),
        source: None,
        floor: Some(Box::new(move || {
            let table = decoded_table();
            time(|| {
                for _ in 0..times {
                    black_box(plain_loop(table, black_box(side), black_box(side), &same));
                }
            })
        })),
    }
}

/// The definition as one would write it down, T in a table.
#[inline(never)]
fn plain_loop(table: &[f32; 256], width: u32, height: u32, texels: &[u32]) -> [f32; 12] {
    let (width_f, height_f) = (width as f32, height as f32);
    let texel_omega = (2.0 / width_f) * (2.0 / height_f);
    let mut sums = [[0.0; 3]; 4];
    let mut place = 0;
    for face in 0..6 {
        for y in 0..height {
            let v = ((y as f32 + 0.5) / height_f) * 2.0 - 1.0;
            for x in 0..width {
                let u = ((x as f32 + 0.5) / width_f) * 2.0 - 1.0;
                let d = 1.0 + u * u + v * v;
                let root = d.sqrt();
                let weight = texel_omega / (d * root);
                let [x, y, z] = on_cube(face, u, v).map(|component| component / root);
                let basis = [0.282095, 0.488603 * y, 0.488603 * z, 0.488603 * x];
                let [red, green, blue, _] = texels[place].to_be_bytes();
                let colour = [red, green, blue].map(|byte| table[byte as usize]);
                for i in 0..4 {
                    for channel in 0..3 {
                        sums[i][channel] += colour[channel] * (basis[i] * weight);
                    }
                }
                place += 1;
            }
        }
    }
    folded(sums)
}

#[cfg(test)]
mod tests {
    use super::*;
    use crate::plain::{irradiance_sh4, Document01};

    #[test]
    fn the_plain_loop_is_the_same_definition() {
        let mut random = Random::of(1, "plain loop");
        for (width, height) in [(1, 1), (3, 5), (16, 16), (40, 7)] {
            let texels: Vec<u32> = (0..6 * width * height).map(|_| random.next() as u32).collect();
            let picture = Lent {
                kind: CUBEMAP,
                width,
                height,
                texels: &texels,
            };
            let looped = plain_loop(decoded_table(), width, height, &texels).map(f32::to_bits);
            assert_eq!(
                irradiance_sh4::<Document01>(&picture).map(|sh| sh.map(f32::to_bits)),
                Ok(looped)
            );
        }
    }
}
