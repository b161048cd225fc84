//! Chains of other tools: which are taken, which texel is the first that is wrong and which levels are blamed for it, what is not
//! looked at, and the refusals.

use swathecold::*;

const KINDS: [TextureType; 5] =
    [TextureType::SRGB, TextureType::Normal, TextureType::MetallicRoughness, TextureType::Cubemap, TextureType::Linear];
const BOTH: [Packing; 2] = [Packing::Truncating, Packing::Nearest];

/// Sides of one texel, one wide, one high, odd ones, and a row that is longer than a part of 64.
const SIDES: [(u32, u32); 8] = [(1, 1), (2, 1), (1, 9), (9, 1), (8, 8), (7, 5), (3, 13), (131, 3)];

/// Texels without a pattern.
fn grain(count: usize) -> Vec<u32> {
    (0..count as u32).map(|i| (i ^ i >> 3).wrapping_mul(2654435761).rotate_left(9).wrapping_mul(2246822519)).collect()
}

/// A picture with the chain that the unit makes.
#[derive(Clone, Copy, Debug)]
struct Made {
    kind: TextureType,
    width: u32,
    height: u32,
    packing: Packing,
}

impl Made {
    /// Every kind, packing and size.
    fn all() -> impl Iterator<Item = Made> {
        let of = |kind| BOTH.map(|packing| SIDES.map(|(width, height)| Made { kind, width, height, packing }));
        KINDS.into_iter().flat_map(move |kind| of(kind).concat())
    }

    fn faces(&self) -> u32 {
        if self.kind == TextureType::Cubemap {
            6
        } else {
            1
        }
    }

    fn top(&self) -> u32 {
        self.width.max(self.height).ilog2()
    }

    fn sizes(&self, level: u32) -> LevelSizes {
        level_sizes(self.kind, self.width, self.height, level).expect("this level is there")
    }

    fn chain(&self) -> Vec<u32> {
        let mut chain = grain(self.sizes(0).total);
        generate_mipmaps(self.kind, self.width, self.height, self.packing, &mut chain).expect("this picture is good");
        chain
    }

    fn check(&self, chain: &[u32]) -> Verdict {
        check_chain(self.kind, self.width, self.height, self.packing, chain).expect("this chain can be judged")
    }

    fn check_level(&self, chain: &[u32], level: u32) -> Verdict {
        check_level(self.kind, self.width, self.height, self.packing, chain, level).expect("this level can be judged")
    }

    /// Every texel of a level: its place in the chain, its face, its column and its row.
    fn texels(&self, level: u32) -> impl Iterator<Item = (usize, u32, u32, u32)> {
        let LevelSizes { start, width, height, .. } = self.sizes(level);
        let rows = (0..self.faces()).flat_map(move |face| (0..height).map(move |y| (face, y)));
        let texels = rows.flat_map(move |(face, y)| (0..width).map(move |x| (face, x, y)));
        texels.enumerate().map(move |(n, (face, x, y))| (start + n, face, x, y))
    }

    /// The place of the texel of the next level that is made of this one; a column or row that is left over makes none.
    fn made_of(&self, level: u32, (face, x, y): (u32, u32, u32)) -> Option<usize> {
        let mut next = (level < self.top()).then(|| self.texels(level + 1)).into_iter().flatten();
        next.find(|at| (at.1, at.2, at.3) == (face, x / 2, y / 2)).map(|at| at.0)
    }
}

/// Where a verdict finds a wrong texel.
fn place(verdict: Verdict) -> Option<usize> {
    match verdict {
        Verdict::Follows => None,
        Verdict::WrongAt { place, .. } => Some(place),
    }
}

#[test]
fn what_the_unit_makes_follows_at_every_level() {
    for made in Made::all() {
        let chain = made.chain();
        assert_eq!(made.check(&chain), Verdict::Follows, "{made:?}");
        for level in 0..=made.top() {
            assert!(made.check_level(&chain, level).follows(), "{made:?}, level {level}");
        }
    }
}

#[test]
fn one_bad_texel_is_named_and_only_the_next_level_can_be_blamed_too() {
    for made in Made::all().filter(|made| made.width < 100) {
        let right = made.chain();
        for level in 1..=made.top() {
            for (at, face, x, y) in made.texels(level) {
                let mut chain = right.clone();
                chain[at] ^= 0x80FF017F;
                let found = Verdict::WrongAt { place: at, level, face, x, y, found: chain[at], expected: right[at] };
                assert_eq!(made.check(&chain), found, "{made:?}");
                assert_eq!(made.check_level(&chain, level), found, "{made:?}");
                for other in (0..=made.top()).filter(|other| *other != level) {
                    let blamed = place(made.check_level(&chain, other));
                    let may_be = (other == level + 1).then(|| made.made_of(level, (face, x, y))).flatten();
                    assert!(blamed.is_none() || blamed == may_be, "{made:?}, texel {at}, level {other}: {blamed:?}");
                }
            }
        }
    }
}

#[test]
fn a_bad_texel_of_level_0_shows_in_the_one_that_is_made_of_it_or_nowhere() {
    for made in Made::all().filter(|made| made.width < 100) {
        let (right, mut shown) = (made.chain(), 0);
        for (at, face, x, y) in made.texels(0) {
            let mut chain = right.clone();
            chain[at] = !chain[at];
            let verdict = made.check(&chain);
            assert!(made.check_level(&chain, 0).follows(), "{made:?}");
            assert!(verdict.follows() || place(verdict) == made.made_of(0, (face, x, y)), "{made:?}, texel {at}: {verdict}");
            shown += usize::from(!verdict.follows());
        }
        assert!(shown > 0 || made.top() == 0, "{made:?}");
    }
}

#[test]
fn the_smallest_place_is_named() {
    let made = Made { kind: TextureType::Cubemap, width: 4, height: 3, packing: Packing::Nearest };
    let (right, behind) = (made.chain(), made.sizes(1).start);
    for (first, second) in (behind..right.len()).flat_map(|first| (first + 1..right.len()).map(move |second| (first, second))) {
        let mut chain = right.clone();
        (chain[first], chain[second]) = (chain[first] ^ 1, chain[second] ^ 0x80);
        assert_eq!(place(made.check(&chain)), Some(first), "{first} and {second}");
    }
}

#[test]
fn a_level_with_those_behind_it_made_anew_is_blamed_alone() {
    for made in Made::all().filter(|made| made.top() > 1) {
        for level in 1..made.top() {
            let (mut chain, LevelSizes { start, width, height, .. }) = (made.chain(), made.sizes(level));
            chain[start] = !chain[start];
            generate_mipmaps(made.kind, width, height, made.packing, &mut chain[start..]).unwrap();
            assert_eq!(place(made.check(&chain)), Some(start), "{made:?}");
            let blamed: Vec<u32> = (0..=made.top()).filter(|m| !made.check_level(&chain, *m).follows()).collect();
            assert_eq!(blamed, [level], "{made:?}");
        }
    }
}

#[test]
fn levels_of_the_other_packing_do_not_follow() {
    for kind in KINDS {
        let [truncating, nearest] = BOTH.map(|packing| Made { kind, width: 21, height: 13, packing });
        let (truncated, rounded) = (truncating.chain(), nearest.chain());
        let first = truncated.iter().zip(&rounded).position(|(a, b)| a != b).expect("they differ in level 1");
        for (made, theirs, own) in [(truncating, &rounded, &truncated), (nearest, &truncated, &rounded)] {
            let Verdict::WrongAt { place, level, found, expected, .. } = made.check(theirs) else {
                panic!("{made:?} took the other's");
            };
            assert_eq!((place, level, found, expected), (first, 1, theirs[first], own[first]), "{made:?}");
        }
    }
}

#[test]
fn levels_from_one_on_are_a_chain_of_their_own() {
    for made in Made::all() {
        let chain = made.chain();
        for level in 0..=made.top() {
            let LevelSizes { start, width, height, .. } = made.sizes(level);
            let picture = Picture::from_chain(made.kind, width, height, made.packing, &chain[start..]);
            let reopened = Picture::from_chain(made.kind, made.width, made.height, made.packing, &chain).unwrap().reopen(level);
            assert_eq!(picture.unwrap().texels(), reopened.unwrap().texels(), "{made:?}, level {level}");
        }
    }
}

#[test]
fn entries_past_the_chain_are_not_looked_at() {
    for made in Made::all() {
        let mut chain = made.chain();
        let total = chain.len();
        for rubbish in [0, 0xFFFFFFFF, 0x0BADF00D] {
            chain.resize(total + 9, rubbish);
            assert!(made.check(&chain).follows(), "{made:?}");
            let picture = Picture::from_chain(made.kind, made.width, made.height, made.packing, &chain).unwrap();
            assert_eq!(picture.texels(), &chain[..total], "{made:?}");
            chain.truncate(total);
        }
    }
}

#[test]
fn a_chain_that_is_taken_is_the_picture_that_the_unit_makes() {
    for made in Made::all() {
        let chain = made.chain();
        let taken = Picture::from_chain(made.kind, made.width, made.height, made.packing, &chain).unwrap();
        assert_eq!(taken, Picture::with_packing(made.kind, made.width, made.height, made.packing, &chain).unwrap(), "{made:?}");
        assert_eq!((taken.packing(), taken.reductions()), (made.packing, 0));
    }
}

#[test]
fn a_chain_that_is_not_taken_says_why() {
    let made = Made { kind: TextureType::Cubemap, width: 4, height: 2, packing: Packing::Truncating };
    let mut chain = made.chain();
    let from = |chain: &[u32]| Picture::from_chain(made.kind, made.width, made.height, made.packing, chain).unwrap_err();
    // the second texel of level 1's face 4
    let right = std::mem::replace(&mut chain[6 * 8 + 4 * 2 + 1], 0x00C0FFEE);
    let wrong = Verdict::WrongAt { place: 57, level: 1, face: 4, x: 1, y: 0, found: 0x00C0FFEE, expected: right };
    assert_eq!(from(&chain), NotTaken::Wrong(wrong));
    let said = format!("wrong at texel 57 (level 1, face 4, x 1, y 0): found 00C0FFEE, expected {right:08X}");
    assert_eq!(wrong.to_string(), said);
    let mend = "; name the packing that made the levels, or have them made again by Picture::with_packing";
    assert_eq!(from(&chain).to_string(), said + mend);
    assert_eq!(Verdict::Follows.to_string(), "follows");

    let short = Picture::new(made.kind, made.width, made.height, &chain[..47]).unwrap_err();
    assert_eq!(from(&chain[..65]), NotTaken::Refused(short));
    let error: Box<dyn std::error::Error> = from(&chain[..65]).into();
    assert_eq!(error.to_string(), short.to_string());
}

/// What can be wrong with a check, in the order in which it is refused: kind, side, chain, mode, level.
const FAULTS: [u32; 5] = [1, 2, 3, 15, 6];

#[test]
fn each_refusal_comes_before_each_later_one() {
    let refused = |answer: Result<Verdict, Refusal>| answer.err().map(Refusal::number);
    let first = |faults: u32| FAULTS.get(faults.trailing_zeros() as usize).copied();
    let chain = grain(7);
    for (faults, far) in (0..1u32 << FAULTS.len()).flat_map(|faults| [0, 1, 29, 1 << 31, u32::MAX - 3].map(|far| (faults, far))) {
        let [kind, side, short, mode, level] = [0, 1, 2, 3, 4].map(|n| faults >> n & 1);
        let (kind, width, lent) = (4 + kind, 4 + side * 4093, &chain[..7 - short as usize]);
        let (mode, level) = (mode * (2 + far), if side == 1 { level * 13 } else { level * (3 + far) });
        assert_eq!(refused(check_chain(kind, width, 1, mode, lent)), first(faults & 0b01111), "faults {faults:05b}");
        assert_eq!(refused(check_level(kind, width, 1, mode, lent, level)), first(faults), "faults {faults:05b}");
    }
}
