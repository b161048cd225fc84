//! Cubemap lookups over drawn cubemaps, square and not, at every level and above the top.

use super::directions::of;
use super::values::{direction, fractional_level};
use super::Run;
use crate::call::Call;
use crate::plain::{top_level, Document01, Rules, CUBEMAP};

/// Runs the part.
pub fn run(run: &mut Run) {
    for _ in 0..run.scale.lookups / run.scale.on_one {
        let (width, height) = cubemap_sides(run);
        on_cubemap(run, width, height);
    }
}

/// Sides of a cubemap: mostly small and both ways, sometimes square, sometimes long.
fn cubemap_sides(run: &mut Run) -> (u32, u32) {
    let side = run.random.between(1, 40) as u32;
    match run.random.below(8) {
        0 => (run.random.pick(&[4095, 4096]), 1),
        1 => (1, run.random.pick(&[4095, 4096])),
        2 | 3 => (side, side),
        4 => (64, 64),
        _ => (side, run.random.between(1, 40) as u32),
    }
}

/// Calls on one cubemap.
fn on_cubemap(run: &mut Run, width: u32, height: u32) {
    let top = top_level(width, height);
    let owned = run.picture(CUBEMAP, width, height);
    let picture = owned.lend();
    for _ in 0..run.scale.on_one {
        let levels: [u32; 4] = std::array::from_fn(|_| match run.random.below(16) {
            0 => u32::MAX,
            1 => top + run.random.below(3) as u32,
            _ => run.random.below(top as u64 + 1) as u32,
        });
        let four = levels.map(|level| {
            let m = level.min(top);
            let (w, h) = (Document01::level_side(width, m), Document01::level_side(height, m));
            direction(&mut run.random, w, h)
        });
        run.call(&Call::SampleCubemapRgb {
            picture,
            directions: of(four),
            levels,
        });
        let fractions = levels.map(|level| {
            if run.random.one_in(2) {
                (level.min(top) as f64 + run.random.unit()) as f32
            } else {
                fractional_level(&mut run.random, top)
            }
        });
        run.call(&Call::SampleCubemapTrilinearRgb {
            picture,
            directions: of(four),
            levels: fractions,
        });
    }
    owned.take_back();
}
