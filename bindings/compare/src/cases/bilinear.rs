//! Bilinear lookups over drawn pictures of every kind, at every level, on every face.

use super::values::{coordinates, sides};
use super::{Run, CODES};
use crate::call::Call;
use crate::plain::{top_level, Document01, Rules, CUBEMAP};

/// Runs the part.
pub fn run(run: &mut Run) {
    // The call for colours takes cubemaps and the one for alpha does not.
    for _ in 0..run.scale.lookups / run.scale.on_one {
        let kind = run.random.pick(&[0, 1, 2, 4]);
        on_picture(run, kind);
    }
    for _ in 0..run.scale.lookups / run.scale.on_one / 4 {
        on_picture(run, CUBEMAP);
    }
}

/// Calls on one picture.
fn on_picture(run: &mut Run, kind: u32) {
    let (width, height) = sides(&mut run.random);
    let owned = run.picture(kind, width, height);
    let picture = owned.lend();
    for _ in 0..run.scale.on_one {
        let level = run.random.below(top_level(width, height) as u64 + 1) as u32;
        let u = coordinates(&mut run.random, Document01::level_side(width, level));
        let v = coordinates(&mut run.random, Document01::level_side(height, level));
        let codes = [run.random.pick(&CODES), run.random.pick(&CODES)];
        let faces = std::array::from_fn(|_| if kind == CUBEMAP { run.random.below(6) as u32 } else { 0 });
        run.call(&Call::SampleBilinearRgb {
            picture,
            codes,
            u,
            v,
            level,
            faces,
        });
        if kind != CUBEMAP {
            run.call(&Call::SampleBilinearAlpha {
                picture,
                codes,
                u,
                v,
                level,
            });
        }
    }
    owned.take_back();
}
