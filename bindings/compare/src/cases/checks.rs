//! Checks: chains that the chain call made, by the same mode and by the other; another texel in small ones everywhere, in larger ones
//! where a level, a row, a part of a row or a block of rows begins or ends; two of them; one that the levels behind were made from; flat
//! and drawn chains; and lengths, modes and levels that are refused.

use super::texels::drawn;
use super::Run;
use crate::call::Call;
use crate::plain::{
    chain_texels, generate_mipmaps, level_sizes, top_level, Document01, Lent, CUBEMAP, NEAREST, TRUNCATING,
};
use crate::random::Random;

const MODES: [u32; 2] = [TRUNCATING, NEAREST];

/// Runs the part.
pub fn run(run: &mut Run) {
    let every = run.scale.every;
    for (kind, mode) in (0..=4).flat_map(|kind| MODES.map(|mode| (kind, mode))) {
        for (width, height) in small_sides().into_iter().step_by(every.min(3)) {
            small_picture(run, kind, width, height, mode);
        }
        for (width, height) in sides_about_parts().into_iter().step_by(every.min(11)) {
            one_at_each(run, kind, width, height, mode, Chain::borders);
        }
        for (width, height) in sides_about_blocks().into_iter().step_by(every.min(7)) {
            one_at_each(run, kind, width, height, mode, Chain::borders_of_blocks);
        }
        for (width, height) in [(4096, 1), (1, 4096), (4095, 2), (3, 4095)]
            .into_iter()
            .step_by(every.min(3))
        {
            one_at_each(run, kind, width, height, mode, Chain::ends);
        }
        drawn_pictures(run, kind, mode);
    }
    for kind in 0..=4 {
        flat(run, kind);
        if run.scale.largest {
            largest(run, kind);
        }
    }
    taken_and_refused(run);
}

/// A chain, whoever made it.
struct Chain {
    kind: u32,
    width: u32,
    height: u32,
    texels: Vec<u32>,
}

impl Chain {
    /// Drawn texels at every level.
    fn drawn(run: &mut Run, kind: u32, width: u32, height: u32) -> Chain {
        let total = chain_texels::<Document01>(kind, width, height) as usize;
        Chain {
            kind,
            width,
            height,
            texels: drawn(&mut run.random, total),
        }
    }

    /// A drawn level 0, and the levels that the chain call makes of it.
    fn made(run: &mut Run, kind: u32, width: u32, height: u32, mode: u32) -> Chain {
        let mut chain = Chain::drawn(run, kind, width, height);
        chain.make_behind(0, mode);
        chain
    }

    /// Makes the levels behind level m from it: they stand as those of a picture of its sides.
    fn make_behind(&mut self, m: u32, mode: u32) {
        let [start, width, height] = self.level(m);
        generate_mipmaps::<Document01>(self.kind, width as u32, height as u32, mode, &mut self.texels[start..])
            .expect("a chain that is taken");
    }

    /// Where level m starts, and its sides.
    fn level(&self, m: u32) -> [usize; 3] {
        let sizes = level_sizes::<Document01>(self.kind, self.width, self.height, m).expect("a level");
        [0, 1, 2].map(|i| sizes[i] as usize)
    }

    fn top(&self) -> u32 {
        top_level(self.width, self.height)
    }

    fn faces(&self) -> usize {
        if self.kind == CUBEMAP {
            6
        } else {
            1
        }
    }

    /// The level that a texel belongs to.
    fn level_of(&self, place: usize) -> u32 {
        (1..=self.top()).filter(|m| self.level(*m)[0] <= place).count() as u32
    }

    /// The first and the last texel of each level, and a drawn one.
    fn ends(&self, random: &mut Random) -> Vec<usize> {
        let of_level = |m: u32| {
            let [start, width, height] = self.level(m);
            let texels = self.faces() * width * height;
            [start, start + texels - 1, start + random.below(texels as u64) as usize]
        };
        (0..=self.top()).flat_map(of_level).collect()
    }

    /// The texels with which the first and the last row of each level, or a part of it, begin or end; of a cubemap in a drawn face.
    fn borders(&self, random: &mut Random) -> Vec<usize> {
        let mut places = Vec::new();
        for [start, width, height] in (0..=self.top()).map(|m| self.level(m)) {
            let face = random.below(self.faces() as u64) as usize;
            for y in [0, height - 1] {
                let row = start + (face * height + y) * width;
                places.extend(borders_of_parts(width).into_iter().map(|x| row + x));
            }
        }
        places.dedup();
        places
    }

    /// Of levels 1 and 2, the first and the last texel of rows at both ends and beside the ends of the blocks of rows that are looked at
    /// together, counted from the level's start and from that of its second face.
    fn borders_of_blocks(&self, _: &mut Random) -> Vec<usize> {
        let mut places = Vec::new();
        for m in 1..=self.top().min(2) {
            let ([_, before, _], [start, width, height]) = (self.level(m - 1), self.level(m));
            let (rows, all) = (rows_together(before), self.faces() * height);
            let first = [0, rows - 1, rows, rows + 1, 2 * rows - 1, 2 * rows, all - 1];
            let mut found: Vec<usize> = first.into_iter().chain(first.map(|y| height + y)).collect();
            found.retain(|y| *y < all);
            found.sort();
            found.dedup();
            places.extend(
                found
                    .into_iter()
                    .flat_map(|y| [start + y * width, start + (y + 1) * width - 1]),
            );
        }
        places.dedup();
        places
    }

    /// Asks for the verdict on the chain, and for those on all its levels.
    fn judge(&self, run: &mut Run, mode: u32) {
        let &Chain {
            kind, width, height, ..
        } = self;
        let picture = Lent {
            kind,
            width,
            height,
            texels: &self.texels,
        };
        run.call(&Call::CheckChain { picture, mode });
        for level in 0..=self.top() {
            run.call(&Call::CheckLevel { picture, mode, level });
        }
    }

    /// The same by both modes.
    fn judge_by_both(&self, run: &mut Run) {
        for mode in MODES {
            self.judge(run, mode);
        }
    }

    /// The same with another texel at a place, which is put back.
    fn judge_with(&mut self, run: &mut Run, mode: u32, place: usize, texel: u32) {
        let before = std::mem::replace(&mut self.texels[place], texel);
        self.judge(run, mode);
        self.texels[place] = before;
    }
}

/// Sides of pictures in which every texel is tried: pairs of small ones, some of them odd, one wide or one high.
fn small_sides() -> Vec<(u32, u32)> {
    let mut sides: Vec<(u32, u32)> = (1..=5).flat_map(|w| (1..=5).map(move |h| (w, h))).collect();
    sides.extend([(1, 9), (9, 1), (2, 17), (17, 2), (7, 7), (8, 8), (9, 6), (13, 3)]);
    sides
}

/// Sides of pictures whose level 1 has rows about as long as one, two and three of the parts of 64 texels that a row is made and checked
/// by; SRGB's are made by 128.
fn sides_about_parts() -> Vec<(u32, u32)> {
    let rows = [63, 64, 65, 127, 128, 129, 191, 192, 193].into_iter();
    rows.flat_map(|row| [(2 * row, 2), (2 * row + 1, 1), (2 * row, 5), (2 * row + 1, 4)])
        .collect()
}

/// How many rows made from rows so wide are looked at together, one at least: with their sources 384 texels.
fn rows_together(width: usize) -> usize {
    (384 / (2 * width + (width / 2).max(1))).max(1)
}

/// Sides of narrow pictures whose level 1 has about as many rows as one and two blocks of them, the widest beside the widths from which
/// rows are looked at one by one.
fn sides_about_blocks() -> Vec<(u32, u32)> {
    let widths = [1, 2, 3, 5, 7, 8, 9, 31, 63, 76, 77, 78, 98, 99, 100].into_iter();
    let sides = |width: u32| {
        let rows = rows_together(width as usize) as u32;
        [(width, 2 * rows), (width, 2 * rows + 3), (width, 4 * rows + 2)]
    };
    widths.flat_map(sides).collect()
}

/// Columns at both ends of a row and beside the ends of parts of 64 texels, and of what these are made of.
fn borders_of_parts(width: usize) -> Vec<usize> {
    let beside = |end: usize| [end - 2, end - 1, end, end + 1];
    let mut columns: Vec<usize> = [64, 128, 192, 256].into_iter().flat_map(beside).collect();
    columns.extend([0, 1, width - 1, width.saturating_sub(2)]);
    columns.retain(|column| *column < width);
    columns.sort();
    columns.dedup();
    columns
}

/// A texel with one channel one off.
fn one_off(random: &mut Random, texel: u32) -> u32 {
    texel ^ 1 << (8 * random.below(4))
}

/// A small picture as it was made, and with the levels behind level 1 by the other mode, by both modes; and with each of its texels
/// another: far off, one channel one off, together with a second one, and with the levels behind made from it.
fn small_picture(run: &mut Run, kind: u32, width: u32, height: u32, mode: u32) {
    let mut chain = Chain::made(run, kind, width, height, mode);
    chain.judge_by_both(run);
    if chain.top() > 1 {
        chain.make_behind(1, 1 - mode);
        chain.judge_by_both(run);
        chain.make_behind(0, mode);
    }
    for place in (0..chain.texels.len()).step_by(run.scale.every.min(7)) {
        let texel = chain.texels[place];
        chain.judge_with(run, mode, place, !texel);
        let other = one_off(&mut run.random, texel);
        chain.judge_with(run, mode, place, other);
        chain.texels[place] = other;
        let second = run.random.below(chain.texels.len() as u64) as usize;
        let drawn = run.random.next() as u32;
        chain.judge_with(run, mode, second, drawn);
        chain.texels[place] = !texel;
        chain.make_behind(chain.level_of(place), mode);
        chain.judge(run, mode);
        chain.texels[place] = texel;
        chain.make_behind(0, mode);
    }
}

/// A picture as it was made, by both modes, and with one texel another at each of some places; of four of these once with a second one.
fn one_at_each(
    run: &mut Run,
    kind: u32,
    width: u32,
    height: u32,
    mode: u32,
    places: fn(&Chain, &mut Random) -> Vec<usize>,
) {
    let mut chain = Chain::made(run, kind, width, height, mode);
    chain.judge_by_both(run);
    let places = places(&chain, &mut run.random);
    for place in places.iter().copied().step_by(run.scale.every.min(7)) {
        let texel = chain.texels[place];
        let near = one_off(&mut run.random, texel);
        let other = run.random.pick(&[!texel, near]);
        chain.judge_with(run, mode, place, other);
        if run.random.one_in(4) {
            let (second, drawn) = (run.random.pick(&places), run.random.next() as u32);
            chain.texels[place] = other;
            chain.judge_with(run, mode, second, drawn);
            chain.texels[place] = texel;
        }
    }
}

/// Drawn pictures until enough texels were gone through: as they were made, with some texels drawn anew, or drawn at every level.
fn drawn_pictures(run: &mut Run, kind: u32, mode: u32) {
    let mut texels = 0;
    while texels < run.scale.texels / 2 {
        let longest = if kind == CUBEMAP { 150 } else { 300 };
        let (width, height) = (
            run.random.between(1, longest) as u32,
            run.random.between(1, longest) as u32,
        );
        let mut chain = if run.random.one_in(8) {
            Chain::drawn(run, kind, width, height)
        } else {
            Chain::made(run, kind, width, height, mode)
        };
        let total = chain.texels.len() as u64;
        for _ in 0..run.random.below(4) {
            let place = run.random.below(total) as usize;
            chain.texels[place] = run.random.next() as u32;
        }
        let longer = run.random.below(4) as usize;
        chain.texels.extend(drawn(&mut run.random, longer));
        chain.judge(run, mode);
        texels += total;
    }
}

/// One texel everywhere: each byte in all its channels.
fn flat(run: &mut Run, kind: u32) {
    for byte in (0..256u32).step_by(run.scale.every) {
        for (width, height) in [(2, 1), (40, 3)] {
            let mut chain = Chain::drawn(run, kind, width, height);
            chain.texels.fill(byte * 0x0101_0101);
            chain.judge_by_both(run);
        }
    }
}

/// The longest sides both ways, of a cubemap beside a shorter one: as made, and with its last texel another.
fn largest(run: &mut Run, kind: u32) {
    let height = if kind == CUBEMAP { 512 } else { 4096 };
    let mode = run.random.pick(&MODES);
    let mut chain = Chain::made(run, kind, 4096, height, mode);
    chain.judge(run, mode);
    let last = chain.texels.len() - 1;
    let texel = one_off(&mut run.random, chain.texels[last]);
    chain.judge_with(run, mode, last, texel);
}

/// Kinds, sides, modes, lengths and levels that are taken, each with those that are refused.
fn taken_and_refused(run: &mut Run) {
    let sides = [
        (1, 1),
        (2, 1),
        (1, 2),
        (5, 3),
        (130, 2),
        (0, 1),
        (1, 4097),
        (1 << 31, u32::MAX),
    ];
    for kind in [0, 1, 2, 3, 4, 5, u32::MAX] {
        for (width, height) in sides {
            for mode in [TRUNCATING, NEAREST, 2, 255, 1 << 31, u32::MAX] {
                by_length(run, kind, width, height, mode);
            }
        }
    }
}

/// Texels none, one short of the chain, exact, and longer; levels up to the top, just above it and far above.
fn by_length(run: &mut Run, kind: u32, width: u32, height: u32, mode: u32) {
    // No chain is made for a side that is refused.
    let held = |side: u32| if side == 0 || side > 4096 { 16 } else { side };
    let mut texels = Chain::made(run, kind.min(4), held(width), held(height), mode.min(1)).texels;
    let exact = texels.len();
    texels.extend([0x0BAD_F00D; 3]);
    let top = top_level(width, height);
    for length in [0, exact - 1, exact, exact + 3] {
        let picture = Lent {
            kind,
            width,
            height,
            texels: &texels[..length],
        };
        run.call(&Call::CheckChain { picture, mode });
        for level in [0, 1, top, top + 1, 1 << 31, u32::MAX] {
            run.call(&Call::CheckLevel { picture, mode, level });
        }
    }
}
