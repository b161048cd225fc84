//! Cuts: all of small pictures, drawn ones of long pictures, and every way of being refused.

use super::texels::drawn;
use super::Run;
use crate::call::Call;
use crate::plain::{Cut, Lent};

/// Runs the part.
pub fn run(run: &mut Run) {
    for width in [1, 2, 3, 4, 7, 8] {
        for height in [1, 2, 3, 4, 7, 8] {
            every_cut(run, width, height);
        }
    }
    far_outside(run);
    let mut texels = 0;
    while texels < run.scale.texels {
        texels += drawn_cut(run);
    }
    if run.scale.largest {
        of_order_12(run);
    }
}

/// One cut of a picture.
fn cut(run: &mut Run, source: Lent, cut: Cut, target: &[u32]) {
    run.call(&Call::Cut { source, cut, target });
}

/// Every corner and side, from nothing to one beyond the picture, in every order up to 4.
fn every_cut(run: &mut Run, width: u32, height: u32) {
    let texels = drawn(&mut run.random, (width * height) as usize);
    let target = [0x0BAD_F00D; 80];
    let source = Lent {
        kind: 4,
        width,
        height,
        texels: &texels,
    };
    for order in 0..=4 {
        for corner_x in (0..=width).step_by(run.scale.every.min(3)) {
            for corner_y in (0..=height).step_by(run.scale.every.min(5)) {
                for cut_width in 0..=width + 1 {
                    for cut_height in 0..=height + 1 {
                        let exact = (cut_width * cut_height) as usize;
                        let of = Cut {
                            order,
                            corner_x,
                            corner_y,
                            width: cut_width,
                            height: cut_height,
                        };
                        let length = exact.saturating_sub(1) + run.random.below(3) as usize;
                        cut(run, source, of, &target[..length.min(80)]);
                    }
                }
            }
        }
    }
}

/// Numbers whose sums do not fit in 32 bits, and orders that no shift takes.
fn far_outside(run: &mut Run) {
    let texels = drawn(&mut run.random, 64);
    let source = Lent {
        kind: 0,
        width: 8,
        height: 8,
        texels: &texels,
    };
    let numbers = [0, 1, 8, 4096, 1 << 31, u32::MAX - 7, u32::MAX];
    for order in [0, 3, 12, 13, 31, 32, 33, 64, u32::MAX] {
        for corner_x in numbers {
            for corner_y in [0, u32::MAX - 7] {
                for width in numbers {
                    for height in [8, u32::MAX - 7] {
                        let of = Cut {
                            order,
                            corner_x,
                            corner_y,
                            width,
                            height,
                        };
                        cut(run, source, of, &[0; 64]);
                    }
                }
            }
        }
    }
}

/// A multiple of 2^k from 0 to `most`.
fn multiple(run: &mut Run, order: u32, most: u32) -> u32 {
    (run.random.below((most >> order) as u64 + 1) as u32) << order
}

/// A drawn cut that is wholly inside, sometimes moved by a little. Answers its texels.
fn drawn_cut(run: &mut Run) -> u64 {
    let order = run.random.below(8) as u32;
    let longest = if run.random.one_in(50) { 4096 } else { 200 };
    let width = (run.random.between(1, longest) as u32).max(1 << order);
    let height = (run.random.between(1, 200) as u32).max(1 << order);
    let kind = run.random.pick(&[0, 1, 2, 4, 4, 3, 5]);
    let faces = if kind == 3 { 6 } else { 1 };
    let texels = drawn(&mut run.random, (width * height * faces) as usize);
    let corner_x = multiple(run, order, width - (1 << order));
    let corner_y = multiple(run, order, height - (1 << order));
    let mut of = Cut {
        order,
        corner_x,
        corner_y,
        width: multiple(run, order, width - corner_x).max(1 << order),
        height: multiple(run, order, height - corner_y).max(1 << order),
    };
    let texels_cut = of.width as usize * of.height as usize;
    let length = texels_cut + run.random.below(4) as usize - run.random.below(2) as usize;
    let target = vec![0x0BAD_F00D; length];
    match run.random.below(12) {
        0 => of.corner_x = of.corner_x.wrapping_sub(1),
        1 => of.corner_y += 1,
        2 => of.width += 1,
        3 => of.height -= 1,
        4 => of.order += 1,
        _ => (),
    }
    let short = run.random.one_in(20) as usize;
    let source = Lent {
        kind,
        width,
        height,
        texels: &texels[..texels.len() - short],
    };
    cut(run, source, of, &target);
    texels_cut as u64
}

/// The one cut of order 12 there is: the whole of the largest picture.
fn of_order_12(run: &mut Run) {
    let texels = drawn(&mut run.random, 4096 * 4096);
    let target = vec![0; 4096 * 4096];
    let source = Lent {
        kind: 4,
        width: 4096,
        height: 4096,
        texels: &texels,
    };
    for (corner_x, width) in [(0, 4096), (4096, 4096), (0, 2048), (2048, 2048)] {
        let of = Cut {
            order: 12,
            corner_x,
            corner_y: 0,
            width,
            height: 4096,
        };
        cut(run, source, of, &target);
    }
}
