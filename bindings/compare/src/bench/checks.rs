//! Checks of chains beside the chains themselves, turn by turn: of large pictures, of small and narrow ones, and of a chain that is wrong
//! where the check begins.

use super::chains::{Shape, Shared};
use super::packing::ROWS;
use super::{number, ratio, time, Row};
use crate::plain::{level_texels, Document01, Lent, Verdict, FOLLOWS, LINEAR, NEAREST, TRUNCATING};
use crate::random::Random;
use crate::unit::Unit;
use std::hint::black_box;
use std::time::Duration;

/// A check takes at most so many times what its chain takes.
const GOAL: f64 = 1.3;

/// Both modes, with what stands behind a row's name.
const MODES: [(u32, &str); 2] = [(TRUNCATING, ""), (NEAREST, ", nearest")];

/// Small, narrow and flat pictures.
const SMALL: [(&str, u32, u32); 8] = [
    ("8 square", 8, 8),
    ("16 square", 16, 16),
    ("64 square", 64, 64),
    ("99 square", 99, 99),
    ("256 square", 256, 256),
    ("1 by 4096", 1, 4096),
    ("2 by 4096", 2, 4096),
    ("4096 by 1", 4096, 1),
];

/// As many texels of level 0 as a round goes through, or one picture.
const TEXELS: u64 = 1 << 18;

/// The side of the picture that is wrong at its first texel behind level 0, and its checks in a round.
const SIDE: u32 = 2048;
const CALLS: u64 = 20;

/// The rows as a table of times and of the ratio to the chain.
pub fn table(unit: &dyn Unit, name: &str, random: &mut Random, rounds: usize) -> String {
    let mut text = format!("## Checks\n\n| | check / chain | goal | {name}, check | {name}, chain |\n");
    text += "|---|--:|--:|--:|--:|\n";
    for (row_name, of) in large().chain(small()) {
        let row = check(unit, random, row_name, of).best(rounds);
        text += &format!(
            "| {} | {} | {GOAL:.2} | {} | {} |\n",
            row.name,
            ratio(row.unit, row.floor),
            number(row.unit),
            number(row.floor)
        );
    }
    let wrong = wrong_at_once(unit, random).best(rounds);
    text + &format!(
        "\nTimes in nanoseconds a texel of level 0. {}: {} ns a call.\n",
        wrong.name,
        number(wrong.unit)
    )
}

/// Every kind, large, by both modes.
fn large() -> impl Iterator<Item = (String, Shape)> {
    ROWS.into_iter().flat_map(|(name, kind, side, _)| {
        MODES.map(|(mode, words)| (format!("{name}{words}"), Shape::square(kind, side, mode)))
    })
}

/// Linear, which has the least to do, in the other shapes.
fn small() -> impl Iterator<Item = (String, Shape)> {
    SMALL.into_iter().flat_map(|(name, width, height)| {
        let of = |mode| Shape {
            kind: LINEAR,
            width,
            height,
            mode,
        };
        MODES.map(|(mode, words)| (format!("Linear, {name}{words}"), of(mode)))
    })
}

/// The check of a chain, with the chain itself, in the same buffer, as the floor; a thing is a texel of level 0.
fn check<'a>(unit: &'a dyn Unit, random: &mut Random, name: String, of: Shape) -> Row<'a> {
    let level_0 = of.drawn(random);
    let texels = of.lent(&level_0);
    let calls = (TEXELS / level_0.len() as u64).max(1);
    let mut chain = of.by_unit(unit, &texels, calls);
    chain();
    Row {
        name,
        count: calls * level_0.len() as u64,
        unit: Some(Box::new(move || judged(unit, of, &texels, calls, FOLLOWS))),
        source: None,
        floor: Some(chain),
    }
}

/// The check of a chain whose first texel behind level 0 is wrong; a thing is a call.
fn wrong_at_once<'a>(unit: &'a dyn Unit, random: &mut Random) -> Row<'a> {
    let of = Shape::square(LINEAR, SIDE, TRUNCATING);
    let texels = of.lent(&of.drawn(random));
    of.by_unit(unit, &texels, 1)();
    let first = level_texels::<Document01>(LINEAR, SIDE, SIDE, 0) as usize;
    texels.borrow_mut()[first] ^= 1;
    let wrong = [0, first as u64];
    Row {
        name: format!("Linear, {SIDE} square, wrong at the first texel of level 1"),
        count: CALLS,
        unit: Some(Box::new(move || judged(unit, of, &texels, CALLS, wrong))),
        source: None,
        floor: None,
    }
}

/// The time of so many checks, all with this verdict.
fn judged(unit: &dyn Unit, of: Shape, texels: &Shared, calls: u64, expected: Verdict) -> Duration {
    let (texels, mut verdict) = (texels.borrow(), [0; 2]);
    let picture = Lent {
        kind: of.kind,
        width: of.width,
        height: of.height,
        texels: &texels,
    };
    let taken = time(|| {
        for _ in 0..calls {
            black_box(unit.check_chain(black_box(&picture), of.mode, &mut verdict));
        }
    });
    assert_eq!(verdict, expected, "what is timed is another check");
    taken
}
