//! Directions to faces: all triples of edge values, then drawn ones.

use super::values::direction;
use super::Run;
use crate::call::Call;
use crate::random::ulps;
use crate::unit::Directions;

/// Runs the part.
pub fn run(run: &mut Run) {
    let edges = edge_values();
    for &x in &edges {
        for &y in edges.iter().step_by(run.scale.every.min(7)) {
            for &z in &edges {
                in_one_lane(run, [x, y, z]);
            }
        }
    }
    for _ in 0..run.scale.lookups {
        let side = run.random.between(1, 64) as u32;
        let drawn = std::array::from_fn(|_| direction(&mut run.random, side, side));
        uv(run, drawn);
    }
}

/// Zeros, subnormal numbers, the ends of the accepted range and those just outside, ties, and what is not finite.
fn edge_values() -> Vec<f32> {
    let (least, most) = (f32::powi(2.0, -60), f32::powi(2.0, 60));
    let positive = [
        0.0,
        f32::from_bits(1),
        f32::MIN_POSITIVE,
        ulps(least, -1),
        least,
        ulps(least, 1),
        ulps(1.0, -1),
        1.0,
        ulps(1.0, 1),
        ulps(most, -1),
        most,
        ulps(most, 1),
        f32::MAX,
        f32::INFINITY,
        f32::NAN,
    ];
    positive.iter().flat_map(|x| [*x, -*x]).collect()
}

/// Four directions.
pub fn of(four: [[f32; 3]; 4]) -> Directions {
    Directions {
        x: four.map(|d| d[0]),
        y: four.map(|d| d[1]),
        z: four.map(|d| d[2]),
    }
}

/// The faces of four directions.
fn uv(run: &mut Run, four: [[f32; 3]; 4]) {
    run.call(&Call::CubemapUvFromNormal { directions: of(four) });
}

/// A direction in one lane, accepted ones in the others.
fn in_one_lane(run: &mut Run, d: [f32; 3]) {
    let mut four = std::array::from_fn(|_| direction(&mut run.random, 16, 16));
    let lane = run.random.below(4) as usize;
    four[lane] = d;
    uv(run, four);
}
