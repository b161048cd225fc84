//! T-07: a chain that another tool made. Each level is judged given the one before it, as that is found in the chain.

use super::chain::make_level;
use super::refusals::{bad_mode, first, of_chain};
use super::rules::Rules;
use super::sizes::{chain_texels, level_start, top_level};
use super::{Answer, Lent};
use std::ops::RangeInclusive;

/// 1 and 0 where every texel that was judged follows; 0 and the first wrong one's place where one does not.
pub type Verdict = [u64; 2];

/// The verdict where no texel is wrong.
pub const FOLLOWS: Verdict = [1, 0];

/// `check_chain` (1, 2, 3, 15) is about all levels.
pub fn check_chain<R: Rules>(chain: &Lent, mode: u32) -> Answer<Verdict> {
    first::<R>(&refusals::<R>(chain, mode))?;
    let top = top_level(chain.width, chain.height);
    Ok(of_levels::<R>(chain, mode, 0..=top))
}

/// `check_level` (1, 2, 3, 15, 6) is about one level.
pub fn check_level<R: Rules>(chain: &Lent, mode: u32, level: u32) -> Answer<Verdict> {
    let [one, two, three, fifteen] = refusals::<R>(chain, mode);
    let six = (6, level > top_level(chain.width, chain.height));
    first::<R>(&[one, two, three, fifteen, six])?;
    Ok(of_levels::<R>(chain, mode, R::judged_for(level)))
}

/// 1, 2, 3 and 15, as the chain call has them.
fn refusals<R: Rules>(chain: &Lent, mode: u32) -> [(u32, bool); 4] {
    let [one, two, three] = of_chain::<R>(chain);
    [one, two, three, (15, bad_mode(mode))]
}

/// The first verdict of some levels that names a wrong texel.
fn of_levels<R: Rules>(chain: &Lent, mode: u32, mut levels: RangeInclusive<u32>) -> Verdict {
    levels
        .find_map(|m| Some(of_level::<R>(chain, mode, m)).filter(|verdict| *verdict != FOLLOWS))
        .unwrap_or(FOLLOWS)
}

/// The verdict on level m: on a copy of the chain it is made again, and held against the one that was found.
fn of_level<R: Rules>(chain: &Lent, mode: u32, m: u32) -> Verdict {
    if m == 0 {
        return R::OF_LEVEL_0;
    }
    let &Lent {
        kind,
        width,
        height,
        texels: found,
    } = chain;
    let mut made = found.to_vec();
    for level in R::made_again_for(m) {
        make_level::<R>(kind, width, height, R::mode_of_check(mode), level, &mut made);
    }
    let start = level_start::<R>(kind, width, height, m) as usize;
    let end = level_start::<R>(kind, width, height, m + 1) as usize;
    let end = R::judged_end(end, chain_texels::<R>(kind, width, height) as usize);
    let wrong: Vec<usize> = (start..end)
        .filter(|place| R::is_wrong(found[*place], made[*place]))
        .collect();
    match R::first_wrong(&wrong) {
        None => FOLLOWS,
        Some(place) => [0, R::place_of(place, start) as u64],
    }
}

#[cfg(test)]
mod tests {
    use super::super::*;
    use super::*;
    use crate::random::Random;

    type D = Document01;

    /// Level 1 is wrong at its second texel, and level 2 was made of that.
    #[test]
    fn a_level_is_judged_by_the_one_that_is_found_before_it() {
        let texels = [0, 0, 0, 0, 0, 0x1010_1010, 0x0808_0808];
        let (chain, levels) = verdicts(LINEAR, 4, 1, NEAREST, &texels);
        assert_eq!((chain, levels), ([0, 5], vec![FOLLOWS, [0, 5], FOLLOWS]));
    }

    #[test]
    fn what_the_chain_call_writes_follows() {
        every_chain(|kind, width, height, mode, texels| {
            let (chain, levels) = verdicts(kind, width, height, mode, texels);
            assert!(chain == FOLLOWS && levels.iter().all(|verdict| *verdict == FOLLOWS));
        });
    }

    /// One bad texel of level m is named, and no level is blamed for it but m and the next.
    #[test]
    fn one_bad_texel_is_blamed_on_two_levels_at_most() {
        every_chain(|kind, width, height, mode, texels| {
            for place in 0..texels.len() {
                let mut bad = texels.to_vec();
                bad[place] ^= 0x8080_8080;
                let (chain, levels) = verdicts(kind, width, height, mode, &bad);
                let starts_before = |m: &usize| level_start::<D>(kind, width, height, *m as u32) <= place as u128;
                let m = (1..levels.len()).filter(starts_before).count();
                let blamed: Vec<usize> = (0..levels.len()).filter(|level| levels[*level] != FOLLOWS).collect();
                assert!(blamed.iter().all(|level| *level == m || *level == m + 1));
                assert!(m == 0 || levels[m] == [0, place as u64]);
                assert_eq!(chain, blamed.first().map_or(FOLLOWS, |level| levels[*level]));
            }
        });
    }

    /// The verdict on a chain, and those on its levels.
    fn verdicts(kind: u32, width: u32, height: u32, mode: u32, texels: &[u32]) -> (Verdict, Vec<Verdict>) {
        let chain = Lent {
            kind,
            width,
            height,
            texels,
        };
        let of_level = |m: u32| check_level::<D>(&chain, mode, m).expect("a level");
        let levels = (0..=top_level(width, height)).map(of_level).collect();
        (check_chain::<D>(&chain, mode).expect("a chain"), levels)
    }

    /// Chains of drawn texels that the chain call made, some with odd sides, one row or one column.
    fn every_chain(mut test: impl FnMut(u32, u32, u32, u32, &[u32])) {
        let mut random = Random::of(1, "check");
        for (kind, mode) in (0..=4).flat_map(|kind| [(kind, TRUNCATING), (kind, NEAREST)]) {
            for (width, height) in [(1, 1), (8, 8), (7, 5), (1, 9), (9, 2), (13, 3)] {
                let total = chain_texels::<D>(kind, width, height);
                let mut texels: Vec<u32> = (0..total).map(|_| random.next() as u32).collect();
                generate_mipmaps::<D>(kind, width, height, mode, &mut texels).expect("a picture that is taken");
                test(kind, width, height, mode, &texels);
            }
        }
    }
}
