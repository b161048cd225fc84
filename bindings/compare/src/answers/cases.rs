//! Which calls stand in the list: every refusal alone and with each later one, 01's own items, borders, drawn ones.

use super::checks::checks;
use super::generator::{bytes, texels};
use super::packing::packing;
use super::record::{record, Record, ARGUMENTS, MODE, PREPARED};
use super::{BEFORE, LONGEST};
use crate::call::{Call, Outcome};
use crate::cases::curve::Fourths;
use crate::cases::refusals::OF_CALL;
use crate::cases::spoil::{accepted, of_picture, taken_kind, Arguments, TARGET};
use crate::cases::values::sides;
use crate::comparison::ask_reading;
use crate::plain::{chain_texels, Cut, Document01, Lent, CUBEMAP, NORMAL, SRGB, TRUNCATING};
use crate::random::Random;
use crate::reading::Reading;

/// Accepted calls of each number up to 15; the checks stand with T-07's records.
const ACCEPTED: [usize; 16] = [
    200, 250, 40, 100, 80, 250, 200, 120, 250, 120, 200, 200, 160, 150, 200, 100,
];

/// Times that each refusal stands in the list alone; with each later one it stands once.
const ALONE: usize = 3;

/// A list that grows.
pub struct List {
    records: Vec<Record>,
    pub random: Random,
}

/// The list of a seed.
pub fn sample(seed: u64) -> Vec<Record> {
    let mut list = List {
        records: Vec::new(),
        random: Random::of(seed, "answers"),
    };
    items(&mut list, TRUNCATING);
    curve(&mut list);
    for (call, accepted) in ACCEPTED.into_iter().enumerate() {
        // 15 stands with T-06's records.
        let numbers: Vec<u32> = OF_CALL[call].iter().copied().filter(|number| *number != 15).collect();
        refusals(&mut list, call, TRUNCATING, &numbers);
        for _ in 0..accepted {
            accepted_call(&mut list, call, TRUNCATING);
        }
    }
    cubemaps(&mut list);
    packing(&mut list);
    checks(&mut list);
    list.records
}

impl List {
    /// A drawn seed.
    pub fn seed(&mut self) -> u32 {
        self.random.between(1, 2147483646) as u32
    }

    /// Adds a call over buffers of a seed, with what the plain reading answers.
    fn add(&mut self, seed: u32, call: &Call) {
        let mut outcome = Outcome::new();
        ask_reading(&Reading::<Document01>::NEW, call, &mut outcome);
        self.records.push(record(seed, call, &outcome));
    }

    /// Adds the call of this number with these arguments, its buffers from a drawn seed.
    fn add_arguments(&mut self, call: usize, mut arguments: Arguments) {
        let seed = self.seed();
        arguments.refill(|count| texels(seed, count), |count| bytes(seed, count), BEFORE);
        self.add(seed, &arguments.call(call));
    }

    /// Adds a call whose first texels stand in the record itself.
    fn add_written_out(&mut self, call: &Call, written_out: &[u32]) {
        self.add(0, call);
        let last = self.records.last_mut().expect("one was added");
        last[ARGUMENTS..ARGUMENTS + written_out.len()].copy_from_slice(written_out);
    }

    /// Adds a check of a chain that was prepared as these words say.
    pub fn add_prepared(&mut self, seed: u32, call: &Call, prepared: [u32; 3]) {
        self.add(seed, call);
        let last = self.records.last_mut().expect("one was added");
        last[PREPARED..PREPARED + 3].copy_from_slice(&prepared);
    }

    /// Adds a chain over a level 0 that is written out.
    pub fn add_chain(&mut self, kind: u32, width: u32, height: u32, mode: u32, level_0: &[u32]) {
        let texels = followed_by_0(level_0, chain_texels::<Document01>(kind, width, height) as usize);
        assert!(
            texels.len() <= MODE - ARGUMENTS,
            "the chain's words end before its mode"
        );
        let call = Call::GenerateMipmaps {
            kind,
            width,
            height,
            mode,
            texels: &texels,
        };
        self.add_written_out(&call, level_0);
    }

    /// Adds the coefficients of a cubemap that is black but for its first texels.
    fn add_cubemap(&mut self, width: u32, height: u32, first: &[u32]) {
        let texels = followed_by_0(first, 6 * (width * height) as usize);
        let call = Call::IrradianceSh4 {
            picture: Lent {
                kind: CUBEMAP,
                width,
                height,
                texels: &texels,
            },
        };
        self.add_written_out(&call, first);
    }
}

/// So many texels: these, and 0 behind them.
fn followed_by_0(texels: &[u32], length: usize) -> Vec<u32> {
    let mut texels = texels.to_vec();
    texels.resize(length, 0);
    texels
}

/// The reference items that are chains, and flat Normal pictures of every byte up to 64.
pub fn items(list: &mut List, mode: u32) {
    for (kind, left, right) in [
        (4, 0x00FF00FF, 0xFF0000FF),
        (1, 0x01FF80FF, 0x01FF80FF),
        (2, 0x11FF0022, 0x3300FF44),
        (0, 0xFF0000FF, 0x000000FF),
    ] {
        list.add_chain(kind, 2, 1, mode, &[left, right]);
    }
    for byte in 0..=64u32 {
        list.add_chain(NORMAL, 2, 1, mode, &[byte * 0x0101_0101; 2]);
    }
}

/// For each value of T four bytes whose reduction changes when it is one place off; three of them to a picture.
fn curve(list: &mut List) {
    let fourths = Fourths::new();
    let found: Vec<[u32; 4]> = (0..256).flat_map(|k| fourths.sensitive(k)).flatten().collect();
    for three in found.chunks_exact(3) {
        let texel = |i: usize| three[0][i] << 24 | three[1][i] << 16 | three[2][i] << 8 | 255;
        list.add_chain(SRGB, 2, 2, TRUNCATING, &[0, 1, 2, 3].map(texel));
    }
}

/// Cubemaps written out: black with any alpha, white, and black but for one texel on each face in turn.
fn cubemaps(list: &mut List) {
    list.add_cubemap(8, 8, &[]);
    for (width, height) in [(1, 1), (2, 1), (1, 2)] {
        let texels = 6 * width * height;
        list.add_cubemap(width, height, &(0..texels).collect::<Vec<u32>>());
        list.add_cubemap(width, height, &vec![u32::MAX; texels as usize]);
        for place in 0..texels as usize {
            let mut first = vec![0xFF; place];
            first.push(0xFFFF_FFFF);
            list.add_cubemap(width, height, &first);
        }
    }
    // The corners of the first face.
    for (side, place) in [(4, 0), (4, 3), (4, 12), (4, 15), (8, 0), (8, 7)] {
        let mut first = vec![0; place];
        first.push(0xFF80_01FF);
        list.add_cubemap(side, side, &first);
    }
}

/// Each of these refusals of a call alone, and with each later one; the mode is this one, where it is not to be unknown.
pub fn refusals(list: &mut List, call: usize, mode: u32, numbers: &[u32]) {
    for (i, first) in numbers.iter().enumerate() {
        for _ in 0..ALONE {
            refused_call(list, call, mode, &[*first]);
        }
        for second in &numbers[i + 1..] {
            refused_call(list, call, mode, &[*first, *second]);
        }
    }
}

/// A call for which these refusals' conditions hold; the mode is this one, where it is not to be unknown.
pub fn refused_call(list: &mut List, call: usize, mode: u32, chosen: &[u32]) {
    let mut arguments = accepted(&mut list.random, call, 0);
    arguments.set_mode(mode);
    // A kind that is not taken comes first, so that a kind above 4 is not lost where both are chosen.
    for refusal in chosen.iter().rev() {
        arguments.spoil(&mut list.random, call, *refusal);
    }
    arguments.lend(&mut list.random, call, chosen.contains(&3), chosen.contains(&TARGET));
    list.add_arguments(call, arguments);
}

/// An accepted call: a small picture, or a long one where its chain is not too long for the list. The mode is this one.
pub fn accepted_call(list: &mut List, call: usize, mode: u32) {
    let kind = taken_kind(&mut list.random, call);
    let (width, height) = sides(&mut list.random);
    let has_buffer = !matches!(call, 0 | 5 | 10);
    let too_long = chain_texels::<Document01>(kind, width, height) as usize + 2 > LONGEST;
    let mut arguments = if matches!(call, 2 | 15) || (has_buffer && (too_long || list.random.one_in(3))) {
        accepted(&mut list.random, call, 0)
    } else {
        of_picture(&mut list.random, call, 0, kind, width, height)
    };
    if call == 3 {
        let cut = drawn_cut(&mut list.random, arguments.width, arguments.height);
        arguments.set_cut(cut);
    }
    arguments.set_mode(mode);
    arguments.lend(&mut list.random, call, false, false);
    list.add_arguments(call, arguments);
}

/// A cut that is wholly inside.
fn drawn_cut(random: &mut Random, width: u32, height: u32) -> Cut {
    let order = random.below(width.min(height).ilog2() as u64 + 1) as u32;
    let mut along = |side: u32| {
        let units = side >> order;
        let corner = random.below(units as u64) as u32;
        let length = random.below((units - corner) as u64) as u32 + 1;
        (corner << order, length << order)
    };
    let ((corner_x, cut_width), (corner_y, cut_height)) = (along(width), along(height));
    Cut {
        order,
        corner_x,
        corner_y,
        width: cut_width,
        height: cut_height,
    }
}
