//! Cube cross.

use super::refusals::{bad_side, too_short};
use super::rules::Rules;
use super::texel::texel;
use super::Answer;

/// The cross (10, 3) is lent as RGBA bytes, row by row; answers the texels written, six faces.
pub fn cut_cross<R: Rules>(width: u32, height: u32, bytes: &[u8], faces: &mut [u32]) -> Answer<u64> {
    // A face is floor(width/4) by floor(height/3); leftover columns and rows are ignored.
    let (face_width, face_height) = (width / 4, height / 3);
    if bad_side(face_width) || bad_side(face_height) {
        return Err(10);
    }
    let texels = 6 * face_width as u128 * face_height as u128;
    if too_short(bytes.len(), width as u128 * height as u128 * 4) || too_short(faces.len(), texels) {
        return Err(3);
    }
    let mut write = 0;
    for (column, row) in R::CROSS {
        for y in 0..face_height {
            for x in 0..face_width {
                let (x, y) = (column * face_width + x, row * face_height + y);
                let read = (y as usize * width as usize + x as usize) * 4;
                faces[write] = texel(std::array::from_fn(|channel| bytes[read + channel] as u32));
                write += 1;
            }
        }
    }
    Ok(texels as u64)
}
