//! `bench [ROUNDS]`: unit and source side by side in one process, turn by turn, the best of several rounds, as ratios.

use swathecold_compare::bench::arguments::{Scene, RANDOM_PLACES, WARM};
use swathecold_compare::bench::{chains, checks, irradiance, lookups, packing, ranges, table, unit, Best, Row};
use swathecold_compare::random::Random;
use swathecold_compare::unit::Unit;

/// Rounds where none are given.
const ROUNDS: usize = 9;

/// Kind codes with their names.
const KINDS: [(&str, u32); 5] = [
    ("SRGB", 0),
    ("Normal", 1),
    ("MetallicRoughness", 2),
    ("Cubemap", 3),
    ("Linear", 4),
];

fn main() {
    let rounds = std::env::args()
        .nth(1)
        .map_or(Ok(ROUNDS), |word| word.parse())
        .unwrap_or(ROUNDS);
    let (name, unit) = unit();
    if cfg!(not(source)) {
        println!("source comparison skipped: set SWRASTER_SRC\n");
    }
    let mut random = Random::of(1, "bench");
    println!("{}", of_chains(&unit, name, &mut random, rounds));
    println!("{}", of_growth(&unit, name, &mut random, rounds));
    for scene in [WARM, RANDOM_PLACES] {
        println!("{}", of_lookups(&unit, name, &mut random, rounds, &scene));
    }
    println!("{}", of_ranges(&unit, name, &mut random, rounds));
    println!("{}", irradiance::table(&unit, name, &mut random, rounds));
    println!("{}", packing::table(&unit, name, &mut random, rounds));
    println!("{}", checks::table(&unit, name, &mut random, rounds));
}

/// Chains of each kind, the cut and the cross.
fn of_chains(unit: &dyn Unit, name: &str, random: &mut Random, rounds: usize) -> String {
    let mut rows: Vec<Best> = Vec::new();
    for (kind_name, kind) in KINDS {
        let side = if kind == 3 { 1024 } else { 2048 };
        let faces = if kind == 3 { " x 6" } else { "" };
        let row = chains::chain(unit, random, &format!("{kind_name}, {side} square{faces}"), kind, side);
        rows.push(row.best(rounds));
    }
    rows.push(chains::cut(unit, random, 2048).best(rounds));
    rows.push(chains::cross(unit, random, 512).best(rounds));
    table(
        "Chains, cut and cross",
        "a texel of level 0 (of the cut, of the faces)",
        name,
        &rows,
    )
}

/// How a chain's time grows from 256 to 4096 square.
fn of_growth(unit: &dyn Unit, name: &str, random: &mut Random, rounds: usize) -> String {
    let mut rows: Vec<Best> = Vec::new();
    for (kind_name, kind) in [("Linear", 4), ("SRGB", 0)] {
        for side in [256, 512, 1024, 2048, 4096] {
            let row = chains::chain(unit, random, &format!("{kind_name}, {side} square"), kind, side);
            rows.push(row.best(rounds));
        }
    }
    table("How a chain's time grows", "a texel of level 0", name, &rows)
}

/// Every lookup.
fn of_lookups(unit: &dyn Unit, name: &str, random: &mut Random, rounds: usize, scene: &Scene) -> String {
    let [plain, cube] = scene.pictures(random);
    let arguments = scene.arguments(random);
    let rows = lookups::rows(unit, &plain, &cube, &arguments);
    let best: Vec<Best> = rows.into_iter().map(|row: Row| row.best(rounds)).collect();
    let [side, cube_side] = scene.sides;
    let title = format!(
        "{}: {} different calls, {side} square and {cube_side} square x 6",
        scene.name, scene.calls
    );
    table(&title, "a call of four lanes", name, &best)
}

/// Building ranges, and a replacement in a picture that a cache holds and in one that none does.
fn of_ranges(unit: &dyn Unit, name: &str, random: &mut Random, rounds: usize) -> String {
    let mut rows = vec![ranges::build(unit, random, 2048).best(rounds)];
    for side in [256, 2048] {
        rows.push(ranges::replace(unit, random, side).best(rounds));
    }
    table("Ranges", "a texel of level 0 (a replacement: a call)", name, &rows)
}
