//! Crosses: every small size, the largest faces and those just outside, buffers one short, exact and longer.

use super::texels::bytes;
use super::Run;
use crate::call::Call;

/// Runs the part.
pub fn run(run: &mut Run) {
    for width in (0..=45).step_by(run.scale.every.min(7)) {
        for height in (0..=34).step_by(run.scale.every.min(5)) {
            cross(run, width, height);
        }
    }
    for width in (16383..=16389).chain([65536]) {
        for height in [3, 5, 6] {
            cross(run, width, height);
        }
    }
    for height in (12287..=12292).chain([65536]) {
        for width in [4, 7, 8] {
            cross(run, width, height);
        }
    }
    far_outside(run);
    let mut texels = 0;
    while texels < run.scale.texels {
        let (width, height) = (run.random.between(4, 900) as u32, run.random.between(3, 700) as u32);
        cross(run, width, height);
        texels += 6 * (width / 4) as u64 * (height / 3) as u64;
    }
}

/// One cross, by its bytes and its faces each one short, exact and longer.
fn cross(run: &mut Run, width: u32, height: u32) {
    let exact_in = width as usize * height as usize * 4;
    let exact_out = 6 * (width as usize / 4) * (height as usize / 3);
    let bytes = bytes(&mut run.random, exact_in + 3);
    let faces = vec![0x0BAD_F00D; exact_out + 3];
    let mut lengths = vec![(exact_in, exact_out)];
    if exact_in < 10_000 {
        lengths.extend([
            (exact_in + 3, exact_out + 3),
            (exact_in, exact_out.saturating_sub(1)),
            (exact_in.saturating_sub(1), exact_out),
            (exact_in.saturating_sub(1), exact_out.saturating_sub(1)),
            (0, 0),
        ]);
    }
    for (length_in, length_out) in lengths {
        run.call(&Call::CutCross {
            width,
            height,
            bytes: &bytes[..length_in],
            faces: &faces[..length_out],
        });
    }
}

/// Sides whose products do not fit in 32 bits, or in 64.
fn far_outside(run: &mut Run) {
    let sides = [1, 3, 4, 12, 16384, 65536, 1 << 30, 1 << 31, u32::MAX];
    for width in sides {
        for height in sides {
            run.call(&Call::CutCross {
                width,
                height,
                bytes: &[0; 48],
                faces: &[0; 6],
            });
        }
    }
}
