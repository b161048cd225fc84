//! Texel numbers around every multiple of a side, for each wrap, along both axes, nearest and bilinear.

use super::{edge_sides, Owned, Run, CODES};
use crate::call::Call;
use crate::random::ulps;

/// Runs the part.
pub fn run(run: &mut Run) {
    for side in edge_sides() {
        for upright in [false, true] {
            let (width, height) = if upright { (1, side) } else { (side, 1) };
            let picture = run.picture(4, width, height);
            for code in CODES {
                around_multiples(run, &picture, side, upright, code);
            }
            picture.take_back();
        }
    }
}

/// Around each multiple from -2048 to 2048 times the side; of the two longest sides around every 16th.
fn around_multiples(run: &mut Run, picture: &Owned, side: u32, upright: bool, code: u32) {
    let step = if side > 40 { 16 } else { 1 } * run.scale.every;
    for multiple in (-2048i64..=2048).step_by(step) {
        for places in [-1, 0, 1] {
            let at = |t: i64| ulps(t as f32 / side as f32, places).clamp(-2048.0, 2048.0);
            let first = multiple * side as i64;
            along(
                run,
                picture,
                upright,
                code,
                [first - 2, first - 1, first, first + 1].map(at),
            );
        }
        let half = |t: i64| ((t as f64 + 0.5) / side as f64).clamp(-2048.0, 2048.0) as f32;
        let first = multiple * side as i64;
        along(
            run,
            picture,
            upright,
            code,
            [first - 2, first - 1, first, first + 1].map(half),
        );
    }
}

/// Four coordinates along the axis that has the side.
fn along(run: &mut Run, picture: &Owned, upright: bool, code: u32, coordinates: [f32; 4]) {
    let (u, v) = if upright {
        ([0.5; 4], coordinates)
    } else {
        (coordinates, [0.5; 4])
    };
    let codes = if upright { [33071, code] } else { [code, 33071] };
    let picture = picture.lend();
    run.call(&Call::Sample4Rgb {
        picture,
        codes,
        u,
        v,
        steps: [0.0; 4],
    });
    run.call(&Call::SampleBilinearRgb {
        picture,
        codes,
        u,
        v,
        level: 0,
        faces: [0; 4],
    });
}
