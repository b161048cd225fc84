//! The aligned cut.

use super::refusals::{first, of_level_0, too_short};
use super::rules::Rules;
use super::{Answer, Lent, CUBEMAP};

/// A cut: its order, its corner and its sides.
#[derive(Clone, Copy, Debug)]
pub struct Cut {
    pub order: u32,
    pub corner_x: u32,
    pub corner_y: u32,
    pub width: u32,
    pub height: u32,
}

/// 11: cut order k above 12, a side 0, corner or side not a multiple of 2^k, or not wholly inside.
fn bad_cut(cut: &Cut, width: u32, height: u32) -> bool {
    if cut.order > 12 || cut.width == 0 || cut.height == 0 {
        return true;
    }
    let unit = 1u32 << cut.order;
    let numbers = [cut.corner_x, cut.corner_y, cut.width, cut.height];
    let inside = |corner: u32, side: u32, whole: u32| corner as u64 + side as u64 <= whole as u64;
    numbers.iter().any(|number| number % unit != 0)
        || !inside(cut.corner_x, cut.width, width)
        || !inside(cut.corner_y, cut.height, height)
}

/// The cut: 1, 2, 3 (source), 8 (a cubemap), 11, 3 (target). It answers the texels written.
pub fn cut<R: Rules>(source: &Lent, cut: &Cut, target: &mut [u32]) -> Answer<u64> {
    let [one, two, three] = of_level_0::<R>(source);
    first::<R>(&[one, two, three, (8, source.kind == CUBEMAP)])?;
    if bad_cut(cut, source.width, source.height) {
        return Err(11);
    }
    let texels = cut.width as u128 * cut.height as u128;
    if too_short(target.len(), texels) {
        return Err(3);
    }
    let mut write = 0;
    for y in 0..cut.height {
        for x in 0..cut.width {
            let (x, y) = (R::cut_place(cut.corner_x, x), R::cut_place(cut.corner_y, y));
            target[write] = source.texels[y as usize * source.width as usize + x as usize];
            write += 1;
        }
    }
    Ok(texels as u64)
}
