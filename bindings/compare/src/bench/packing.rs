//! Chains in nearest mode beside truncating ones, turn by turn.

use super::chains::nearest;
use super::{number, ratio};
use crate::random::Random;
use crate::unit::Unit;

/// Kinds with their sides and goals: so many nanoseconds a texel, or no more than truncating takes.
pub const ROWS: [(&str, u32, u32, &str); 5] = [
    ("Linear, 2048 square", 4, 2048, "1.00 ns"),
    ("Cubemap, 1024 square x 6", 3, 1024, "1.00 ns"),
    ("Normal, 2048 square", 1, 2048, "2.50 ns"),
    ("SRGB, 2048 square", 0, 2048, "truncating"),
    ("MetallicRoughness, 2048 square", 2, 2048, "truncating"),
];

/// The rows as a table of times and of the ratio to truncating.
pub fn table(unit: &dyn Unit, name: &str, random: &mut Random, rounds: usize) -> String {
    let mut text = format!("## Packing\n\n| | nearest / truncating | goal | {name}, nearest | {name}, truncating |\n");
    text += "|---|--:|--:|--:|--:|\n";
    for (row_name, kind, side, goal) in ROWS {
        let row = nearest(unit, random, row_name, kind, side).best(rounds);
        text += &format!(
            "| {} | {} | {goal} | {} | {} |\n",
            row.name,
            ratio(row.unit, row.floor),
            number(row.unit),
            number(row.floor)
        );
    }
    text + "\nTimes in nanoseconds a texel of level 0; nearest takes at most its goal.\n"
}
