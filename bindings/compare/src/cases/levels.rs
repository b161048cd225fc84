//! The level rule: footprints within a few places of 4^m, infinite ones, nothing at all.

use super::values::{sides, steps};
use super::{edge_sides, Run};
use crate::call::Call;

/// Runs the part.
pub fn run(run: &mut Run) {
    for width in edge_sides() {
        for height in edge_sides() {
            for _ in 0..20usize.div_ceil(run.scale.every) {
                level(run, width, height);
            }
        }
    }
    for _ in 0..run.scale.lookups / 50 {
        let (width, height) = sides(&mut run.random);
        for _ in 0..50 {
            level(run, width, height);
        }
    }
}

/// The level of drawn steps.
fn level(run: &mut Run, width: u32, height: u32) {
    let steps = steps(&mut run.random, width, height);
    run.call(&Call::ComputeMipLevel { width, height, steps });
}
