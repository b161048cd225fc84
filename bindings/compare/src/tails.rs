//! Smaller chains for the calls that make or check one: the levels from one on, and the square that a texel is made of.

use crate::call::{Call, Outcome};
use crate::plain::{level_sizes, top_level, Document01, Lent, CUBEMAP};

/// A check of a chain that is lent: of all levels, or of one.
struct Check<'a> {
    picture: &'a Lent<'a>,
    mode: u32,
    level: Option<u32>,
}

/// The same of a smaller chain, with texels of its own.
pub struct Tail {
    kind: u32,
    sides: (u32, u32),
    texels: Vec<u32>,
    mode: u32,
    level: Option<u32>,
}

impl Tail {
    /// The call on the smaller chain.
    pub fn call(&self) -> Call<'_> {
        let &Tail { kind, mode, level, .. } = self;
        let picture = Lent {
            kind,
            width: self.sides.0,
            height: self.sides.1,
            texels: &self.texels,
        };
        match level {
            None => Call::CheckChain { picture, mode },
            Some(level) => Call::CheckLevel { picture, mode, level },
        }
    }
}

impl Check<'_> {
    fn of(&self, sides: (u32, u32), texels: Vec<u32>, level: Option<u32>) -> Tail {
        Tail {
            kind: self.picture.kind,
            sides,
            texels,
            mode: self.mode,
            level,
        }
    }

    /// The levels from m on, where the one that is asked for is among them.
    fn levels_from(&self, m: u32) -> Option<Tail> {
        let &Lent {
            kind, width, height, ..
        } = self.picture;
        let [start, width, height, _] = level_sizes::<Document01>(kind, width, height, m).ok()?;
        let texels = self.picture.texels.get(start as usize..)?.to_vec();
        let level = match self.level {
            None => None,
            Some(level) => Some(level.checked_sub(m)?),
        };
        Some(self.of((width as u32, height as u32), texels, level))
    }

    /// The texel at a place, behind the square that it is made of; a cubemap has them six times.
    fn square(&self, place: usize) -> Option<Tail> {
        let texel = *self.picture.texels.get(place)?;
        let four = four_texels(self.picture, place)?;
        let faces = if self.picture.kind == CUBEMAP { 6 } else { 1 };
        let texels = [four.repeat(faces), vec![texel; faces]].concat();
        Some(self.of((2, 2), texels, self.level.map(|_| 1)))
    }
}

/// The smaller chains of a check: its levels from each on, and the squares of the texels that the two outcomes name.
pub fn tails(call: &Call, expected: &Outcome, got: &Outcome) -> Vec<Tail> {
    let (picture, mode, level) = match call {
        Call::CheckChain { picture, mode } => (picture, *mode, None),
        Call::CheckLevel { picture, mode, level } => (picture, *mode, Some(*level)),
        _ => return Vec::new(),
    };
    let check = Check { picture, mode, level };
    let levels = (1..=top_level(picture.width, picture.height)).filter_map(|m| check.levels_from(m));
    let named = [expected, got].map(|outcome| outcome.words[2] as usize);
    levels
        .chain(named.into_iter().filter_map(|place| check.square(place)))
        .collect()
}

/// The four texels of which the one at a place of a chain is made; level 0 is made of none.
pub fn four_texels(chain: &Lent, place: usize) -> Option<[u32; 4]> {
    let sizes = |m: u32| level_sizes::<Document01>(chain.kind, chain.width, chain.height, m).ok();
    let faces = if chain.kind == CUBEMAP { 6 } else { 1 };
    for m in 1..=top_level(chain.width, chain.height) {
        let [start, w, h, _] = sizes(m)?.map(|n| n as usize);
        let [before, w0, h0, _] = sizes(m - 1)?.map(|n| n as usize);
        if place < start || place >= start + faces * w * h {
            continue;
        }
        let (face, place) = ((place - start) / (w * h), (place - start) % (w * h));
        let (x0, y0) = (place % w * 2, place / w * 2);
        let (x1, y1) = ((x0 + 1).min(w0 - 1), (y0 + 1).min(h0 - 1));
        let at = |x: usize, y: usize| chain.texels[before + face * w0 * h0 + y * w0 + x];
        return Some([at(x0, y0), at(x1, y0), at(x0, y1), at(x1, y1)]);
    }
    None
}
