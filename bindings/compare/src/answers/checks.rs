//! T-07's records, behind all others: checks of chains that the chain call made, as they are and with one texel replaced; of drawn
//! texels; and every refusal alone and with each later one.

use super::cases::{accepted_call, refusals, List};
use super::generator::texels;
use super::record::NO_PLACE;
use crate::call::Call;
use crate::cases::refusals::OF_CALL;
use crate::plain::{
    chain_texels, generate_mipmaps, level_sizes, top_level, Document01, Lent, CUBEMAP, NEAREST, TRUNCATING,
};

const MODES: [u32; 2] = [TRUNCATING, NEAREST];

/// The numbers of the two calls.
const CHECKS: [usize; 2] = [16, 17];

/// Accepted checks of drawn texels, for each call and mode.
const ACCEPTED: usize = 10;

/// A picture whose level 1 has a row one longer than two parts of 64 texels, and columns at which these begin and end.
const LONG_ROW: (u32, u32) = (259, 2);
const COLUMNS: [u32; 4] = [63, 64, 127, 128];

/// Adds them.
pub fn checks(list: &mut List) {
    for kind in 0..=4 {
        for (mode, (width, height)) in MODES
            .into_iter()
            .flat_map(|mode| [(5, 3), (33, 17)].map(|sides| (mode, sides)))
        {
            of_chain(list, kind, width, height, mode);
        }
        let longest = if kind == CUBEMAP { (1, 640) } else { (4096, 1) };
        for (width, height) in [(1, 1), LONG_ROW, longest] {
            let mode = list.random.pick(&MODES);
            of_chain(list, kind, width, height, mode);
        }
        of_long_row(list, kind);
    }
    for call in CHECKS {
        for mode in MODES {
            (0..ACCEPTED).for_each(|_| accepted_call(list, call, mode));
        }
        refusals(list, call, NEAREST, OF_CALL[call]);
    }
}

/// A chain of a seed's texels, its levels made by a mode, in a buffer that is longer by one.
struct Chain {
    seed: u32,
    kind: u32,
    width: u32,
    height: u32,
    mode: u32,
    texels: Vec<u32>,
}

impl Chain {
    fn made(seed: u32, kind: u32, width: u32, height: u32, mode: u32) -> Chain {
        let mut texels = texels(seed, chain_texels::<Document01>(kind, width, height) as usize + 1);
        generate_mipmaps::<Document01>(kind, width, height, mode, &mut texels).expect("a picture that is taken");
        Chain {
            seed,
            kind,
            width,
            height,
            mode,
            texels,
        }
    }

    /// A drawn place of level m.
    fn place_in(&self, list: &mut List, m: u32) -> u32 {
        let start = |m: u32| match level_sizes::<Document01>(self.kind, self.width, self.height, m) {
            Ok([start, ..]) => start as i64,
            Err(_) => self.texels.len() as i64 - 1,
        };
        list.random.between(start(m), start(m + 1) - 1) as u32
    }

    /// Adds the check of a level, or of all, by a mode, with some bits of a texel changed where the buffer has its place.
    fn add(&self, list: &mut List, mode: u32, level: Option<u32>, place: u32, bits: u32) {
        let mut texels = self.texels.clone();
        let texel = texels.get_mut(place as usize).map_or(bits, |texel| {
            *texel ^= bits;
            *texel
        });
        let &Chain {
            seed,
            kind,
            width,
            height,
            ..
        } = self;
        let picture = Lent {
            kind,
            width,
            height,
            texels: &texels,
        };
        let call = match level {
            None => Call::CheckChain { picture, mode },
            Some(level) => Call::CheckLevel { picture, mode, level },
        };
        list.add_prepared(seed, &call, [self.mode + 1, place, texel]);
    }
}

/// A chain as it was made, and by the other mode; with an entry behind it another; with a texel of level 0, with its last one, and with
/// one of another level another, far off and by one.
fn of_chain(list: &mut List, kind: u32, width: u32, height: u32, mode: u32) {
    let chain = Chain::made(list.seed(), kind, width, height, mode);
    let (top, behind) = (top_level(width, height), chain.texels.len() as u32 - 1);
    chain.add(list, mode, None, NO_PLACE, 0);
    chain.add(list, mode, Some(top), NO_PLACE, 0);
    chain.add(list, 1 - mode, None, NO_PLACE, 0);
    let behind_or_none = behind + list.random.below(2) as u32;
    chain.add(list, mode, None, behind_or_none, u32::MAX);
    let place = chain.place_in(list, 0);
    chain.add(list, mode, None, place, u32::MAX);
    chain.add(list, mode, Some(0), place, u32::MAX);
    if top == 0 {
        return;
    }
    chain.add(list, mode, None, behind - 1, 1 << 16);
    chain.add(list, mode, Some(top), behind - 1, 1 << 16);
    let m = list.random.between(1, top as i64) as u32;
    let place = chain.place_in(list, m);
    chain.add(list, mode, None, place, 1);
    chain.add(list, mode, None, place, u32::MAX);
    for level in m..=top.min(m + 2) {
        chain.add(list, mode, Some(level), place, u32::MAX);
    }
}

/// A chain with one texel of a long row another, beside the borders of its parts.
fn of_long_row(list: &mut List, kind: u32) {
    let (width, height) = LONG_ROW;
    let mode = list.random.pick(&MODES);
    let chain = Chain::made(list.seed(), kind, width, height, mode);
    let [start, ..] = level_sizes::<Document01>(kind, width, height, 1).expect("a level");
    for column in COLUMNS {
        chain.add(list, mode, None, start as u32 + column, 1 << 8);
    }
}
