//! Level sizes and level views: every edge side both ways, every level, face and kind, and those just outside.

use super::{edge_sides, Run};
use crate::call::Call;
use crate::plain::{chain_texels, top_level, Document01, Lent};

/// Runs the part.
pub fn run(run: &mut Run) {
    sizes(run);
    views(run);
}

/// Levels of a picture: all of them, and some above the top.
fn levels(width: u32, height: u32) -> Vec<u32> {
    let top = top_level(width, height);
    (0..=top + 2).chain([31, 32, 33, u32::MAX]).collect()
}

/// Level sizes of every pair of sides.
fn sizes(run: &mut Run) {
    let sides: Vec<u32> = edge_sides().into_iter().chain([0, 4097, 65536, u32::MAX]).collect();
    for kind in [0, 1, 2, 3, 4, 5, u32::MAX] {
        for &width in sides.iter().step_by(run.scale.every.min(7)) {
            for &height in sides.iter().step_by(run.scale.every.min(5)) {
                for level in levels(width, height) {
                    run.call(&Call::LevelSizes {
                        kind,
                        width,
                        height,
                        level,
                    });
                }
            }
        }
    }
}

/// Level views of small pictures and long ones, with a buffer one short, exact and longer.
fn views(run: &mut Run) {
    let mut sides: Vec<(u32, u32)> = (1..=9).flat_map(|w| (1..=9).map(move |h| (w, h))).collect();
    sides.extend([(40, 39), (4096, 1), (1, 4095), (4095, 2)]);
    for kind in 0..=5 {
        for &(width, height) in sides.iter().step_by(run.scale.every) {
            let exact = chain_texels::<Document01>(kind, width, height) as usize;
            let texels = vec![0; exact + 1];
            for length in [0, exact - 1, exact, exact + 1] {
                for level in levels(width, height) {
                    for face in [0, 1, 2, 3, 4, 5, 6, u32::MAX] {
                        run.call(&Call::LevelView {
                            picture: Lent {
                                kind,
                                width,
                                height,
                                texels: &texels[..length],
                            },
                            level,
                            face,
                        });
                    }
                }
            }
        }
    }
}
