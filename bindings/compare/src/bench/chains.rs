//! Chains of each kind, the cut and the cross, with memcpy of the same texels as the floor.

use std::cell::RefCell;
use std::rc::Rc;

use super::{time, Row, Timed};
use crate::plain::{chain_texels, level_texels, Cut, Document01, Lent, NEAREST, TRUNCATING};
use crate::random::Random;
use crate::unit::Unit;

/// A picture's kind and sides, and the mode that its chain is made by.
#[derive(Clone, Copy)]
pub struct Shape {
    pub kind: u32,
    pub width: u32,
    pub height: u32,
    pub mode: u32,
}

/// A buffer that is timed by turns.
pub type Shared = Rc<RefCell<Vec<u32>>>;

impl Shape {
    /// That of a square picture.
    pub fn square(kind: u32, side: u32, mode: u32) -> Shape {
        Shape {
            kind,
            width: side,
            height: side,
            mode,
        }
    }

    /// Drawn texels of level 0.
    pub fn drawn(self, random: &mut Random) -> Vec<u32> {
        let texels = level_texels::<Document01>(self.kind, self.width, self.height, 0);
        (0..texels).map(|_| random.next() as u32).collect()
    }

    /// A buffer for the chain of a level 0, which chains of either mode leave as it is.
    pub fn lent(self, level_0: &[u32]) -> Shared {
        let mut texels = level_0.to_vec();
        texels.resize(
            chain_texels::<Document01>(self.kind, self.width, self.height) as usize,
            0,
        );
        Rc::new(RefCell::new(texels))
    }

    /// So many calls of the unit, over a buffer made before.
    pub fn by_unit<'a>(self, unit: &'a dyn Unit, texels: &Shared, calls: u64) -> Timed<'a> {
        let Shape {
            kind,
            width,
            height,
            mode,
        } = self;
        let texels = Rc::clone(texels);
        Box::new(move || {
            let (mut texels, mut written) = (texels.borrow_mut(), 0);
            time(|| {
                for _ in 0..calls {
                    unit.generate_mipmaps(kind, width, height, mode, &mut texels, &mut written);
                }
            })
        })
    }
}

/// The chain of a square picture; a thing is a texel of level 0.
pub fn chain<'a>(unit: &'a dyn Unit, random: &mut Random, name: &str, kind: u32, side: u32) -> Row<'a> {
    let of = Shape::square(kind, side, TRUNCATING);
    let level_0 = of.drawn(random);
    let (from, mut to) = (level_0.clone(), vec![0u32; level_0.len()]);
    Row {
        name: name.to_string(),
        count: level_0.len() as u64,
        unit: Some(of.by_unit(unit, &of.lent(&level_0), 1)),
        source: source_chain(kind, side, level_0),
        floor: Some(Box::new(move || time(|| to.copy_from_slice(&from)))),
    }
}

/// The chain of a square picture in nearest mode, with the truncating one as the floor; a thing is a texel of level 0. Both are made in one
/// buffer: two that lie in other pages can differ by a fifth.
pub fn nearest<'a>(unit: &'a dyn Unit, random: &mut Random, name: &str, kind: u32, side: u32) -> Row<'a> {
    let [nearest, truncating] = [NEAREST, TRUNCATING].map(|mode| Shape::square(kind, side, mode));
    let level_0 = nearest.drawn(random);
    let texels = nearest.lent(&level_0);
    Row {
        name: name.to_string(),
        count: level_0.len() as u64,
        unit: Some(nearest.by_unit(unit, &texels, 1)),
        source: None,
        floor: Some(truncating.by_unit(unit, &texels, 1)),
    }
}

/// The source's chain: `generate_mipmaps` alone, over a texture made before.
#[cfg(source)]
fn source_chain<'a>(kind: u32, side: u32, level_0: Vec<u32>) -> Option<Timed<'a>> {
    Some(Box::new(move || {
        let mut texture = crate::source::texture(kind, side, side, level_0.clone());
        let taken = time(|| texture.generate_mipmaps());
        std::hint::black_box(texture.data.last());
        taken
    }))
}

#[cfg(not(source))]
fn source_chain<'a>(_kind: u32, _side: u32, _level_0: Vec<u32>) -> Option<Timed<'a>> {
    None
}

/// The cut of a quarter of a square picture; a thing is a texel cut.
pub fn cut<'a>(unit: &'a dyn Unit, random: &mut Random, side: u32) -> Row<'a> {
    let texels: Vec<u32> = (0..side * side).map(|_| random.next() as u32).collect();
    let half = side / 2;
    let of = Cut {
        order: 2,
        corner_x: half / 2,
        corner_y: half / 2,
        width: half,
        height: half,
    };
    let mut target = vec![0u32; (half * half) as usize];
    let (from, mut to) = (target.clone(), target.clone());
    Row {
        name: format!("cut, {half} square of {side} square"),
        count: target.len() as u64,
        unit: Some(Box::new(move || {
            let source = Lent {
                kind: 4,
                width: side,
                height: side,
                texels: &texels,
            };
            let mut written = 0;
            time(|| unit.cut(&source, &of, &mut target, &mut written))
        })),
        source: None,
        floor: Some(Box::new(move || time(|| to.copy_from_slice(&from)))),
    }
}

/// The cutting of a cross with square faces; a thing is a texel of a face.
pub fn cross<'a>(unit: &'a dyn Unit, random: &mut Random, side: u32) -> Row<'a> {
    let (width, height) = (4 * side, 3 * side);
    let bytes: Vec<u8> = (0..width as usize * height as usize * 4)
        .map(|_| random.next() as u8)
        .collect();
    let mut faces = vec![0u32; 6 * (side * side) as usize];
    let (from, mut to) = (faces.clone(), faces.clone());
    Row {
        name: format!("cross, six faces of {side} square"),
        count: faces.len() as u64,
        unit: Some(Box::new(move || {
            let mut written = 0;
            time(|| unit.cut_cross(width, height, &bytes, &mut faces, &mut written))
        })),
        source: None,
        floor: Some(Box::new(move || time(|| to.copy_from_slice(&from)))),
    }
}
