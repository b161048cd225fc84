//! Nearest lookups over drawn pictures: coordinates around borders, steps around levels.

use super::values::{coordinates, sides, steps};
use super::{Run, CODES};
use crate::call::Call;
use crate::plain::{compute_mip_level, Document01, Rules};

/// Runs the part.
pub fn run(run: &mut Run) {
    for _ in 0..run.scale.lookups / run.scale.on_one {
        let (width, height) = sides(&mut run.random);
        let kind = run.random.pick(&[0, 1, 2, 4]);
        let owned = run.picture(kind, width, height);
        let picture = owned.lend();
        for _ in 0..run.scale.on_one {
            let steps = steps(&mut run.random, width, height);
            let level = compute_mip_level::<Document01>(width, height, &steps).expect("accepted steps");
            let u = coordinates(&mut run.random, Document01::level_side(width, level));
            let v = coordinates(&mut run.random, Document01::level_side(height, level));
            let codes = [run.random.pick(&CODES), run.random.pick(&CODES)];
            run.call(&Call::Sample4Rgb {
                picture,
                codes,
                u,
                v,
                steps,
            });
            run.call(&Call::Sample4Alpha {
                picture,
                codes,
                u,
                v,
                steps,
            });
        }
        owned.take_back();
    }
}
