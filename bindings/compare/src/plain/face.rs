//! Direction to face.

use super::refusals::{bad_directions, first};
use super::rules::{sign, Axis, Rules};
use super::{Answer, Lanes};

/// Where one direction meets the cube.
#[derive(Clone, Copy, Debug)]
pub struct OnFace {
    pub face: u32,
    pub u: f32,
    pub v: f32,
}

/// The face of one direction and 0.5 * (q/major + 1) for both q.
pub fn on_face<R: Rules>(direction: [f32; 3]) -> OnFace {
    let [x, y, z] = direction;
    let axis = R::axis(direction);
    let (major, even_face) = match axis {
        Axis::X => (x, 0),
        Axis::Y => (y, 2),
        Axis::Z => (z, 4),
    };
    let (q_u, q_v) = R::before_scaling(axis, direction);
    OnFace {
        face: if sign(major) > 0.0 { even_face } else { even_face + 1 },
        u: R::scaled(q_u, major.abs()),
        v: R::scaled(q_v, major.abs()),
    }
}

/// `cubemap_uv_from_normal` takes directions (7) and answers four u, four v and the four faces.
pub fn cubemap_uv_from_normal<R: Rules>(x: &Lanes, y: &Lanes, z: &Lanes) -> Answer<([f32; 8], [u32; 4])> {
    first::<R>(&[(7, bad_directions::<R>(x, y, z))])?;
    let (mut uv, mut faces) = ([0.0; 8], [0; 4]);
    for lane in 0..4 {
        let on = on_face::<R>([x[lane], y[lane], z[lane]]);
        uv[lane] = on.u;
        uv[4 + lane] = on.v;
        faces[lane] = on.face;
    }
    Ok((uv, faces))
}
