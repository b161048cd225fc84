//! The cases: edges first, then numbers drawn by the seed. Every part has its own stream, so a part can be run alone.

mod beside;
mod bilinear;
mod chains;
mod checks;
mod crosses;
mod cubemaps;
pub mod curve;
mod cuts;
mod directions;
mod irradiance;
mod levels;
mod nearest;
mod packing;
mod ranges;
pub mod refusals;
mod replacements;
mod sizes;
pub mod spoil;
pub mod squares;
mod texels;
pub mod values;
mod wraps;

use crate::call::Call;
use crate::comparison::Comparison;
use crate::plain::{chain_texels, Document01, Lent};
use crate::random::Random;
use crate::unit::Picture;

/// How much is drawn beside the edges.
#[derive(Clone, Copy)]
pub struct Scale {
    /// Calls of each lookup, and so many of them on one picture.
    pub lookups: u64,
    pub on_one: u64,
    /// Texels of each kind.
    pub texels: u64,
    /// Of edges that are many, every so-manieth is taken.
    pub every: usize,
    /// Pictures of the largest sides both ways.
    pub largest: bool,
}

/// For a run under a checker of memory, which takes fifty times as long.
pub const SMALL: Scale = Scale {
    lookups: 10_000,
    on_one: 50,
    texels: 20_000,
    every: 61,
    largest: false,
};

/// Under a minute.
pub const QUICK: Scale = Scale {
    lookups: 1_000_000,
    on_one: 1000,
    texels: 2_000_000,
    every: 1,
    largest: false,
};

/// At least 10 million calls of each lookup and 10 million texels of each kind.
pub const LARGE: Scale = Scale {
    lookups: 10_000_000,
    on_one: 1000,
    texels: 10_000_000,
    every: 1,
    largest: true,
};

/// Every side from 1 to 40, 4095, 4096.
pub fn edge_sides() -> Vec<u32> {
    (1..=40).chain([4095, 4096]).collect()
}

/// The wrap codes: Repeat, ClampToEdge, MirroredRepeat, not given.
pub const CODES: [u32; 4] = [10497, 33071, 33648, 0];

/// A run: the comparison, the stream of the part, and the numbers of the pictures lent.
pub struct Run<'c> {
    pub comparison: &'c mut Comparison,
    pub scale: Scale,
    pub random: Random,
    seed: u64,
    pictures: u64,
}

impl Run<'_> {
    /// A run of a seed.
    pub fn new(comparison: &mut Comparison, scale: Scale, seed: u64) -> Run<'_> {
        Run {
            comparison,
            scale,
            random: Random::of(seed, ""),
            seed,
            pictures: 0,
        }
    }

    /// Asks everybody one call.
    pub fn call(&mut self, call: &Call) {
        self.comparison.call(call);
    }

    /// A number that no picture had yet.
    pub fn new_number(&mut self) -> u64 {
        self.pictures += 1;
        self.pictures
    }

    /// A chain of drawn texels, lent as a picture with a number of its own.
    pub fn picture(&mut self, kind: u32, width: u32, height: u32) -> Owned {
        let texels = chain_texels::<Document01>(kind, width, height) as usize;
        let texels: Vec<u32> = (0..texels).map(|_| self.random.next() as u32).collect();
        Owned {
            number: self.new_number(),
            kind,
            width,
            height,
            before: mixed(&texels),
            texels: texels.into_boxed_slice(),
        }
    }
}

/// A picture that a run owns and lends.
pub struct Owned {
    number: u64,
    pub kind: u32,
    pub width: u32,
    pub height: u32,
    texels: Box<[u32]>,
    before: u64,
}

impl Owned {
    /// The picture as it is lent.
    pub fn lend(&self) -> Picture<'_> {
        Picture {
            number: self.number,
            lent: Lent {
                kind: self.kind,
                width: self.width,
                height: self.height,
                texels: &self.texels,
            },
        }
    }

    /// No lent buffer changes that is only read.
    pub fn take_back(self) {
        let (kind, width, height) = (self.kind, self.width, self.height);
        assert!(
            mixed(&self.texels) == self.before,
            "a lookup wrote into its picture: kind {kind}, {width} by {height}"
        );
    }
}

/// All texels mixed into one number.
fn mixed(texels: &[u32]) -> u64 {
    texels
        .iter()
        .fold(1, |h: u64, texel| (h ^ *texel as u64).wrapping_mul(0x100_0000_01B3))
}

/// A part of a run.
type Part = (&'static str, fn(&mut Run));

/// The parts, in 01's order and then in 02's; packing stands with the chains.
const PARTS: [Part; 17] = [
    ("refusals", refusals::run),
    ("sizes", sizes::run),
    ("chains", chains::run),
    ("packing", packing::run),
    ("curve", curve::run),
    ("crosses", crosses::run),
    ("cuts", cuts::run),
    ("levels", levels::run),
    ("wraps", wraps::run),
    ("nearest", nearest::run),
    ("bilinear", bilinear::run),
    ("directions", directions::run),
    ("cubemaps", cubemaps::run),
    ("ranges", ranges::run),
    ("replacements", replacements::run),
    ("irradiance", irradiance::run),
    ("checks", checks::run),
];

/// Runs every part; `say` is told of each before it starts.
pub fn run_all(comparison: &mut Comparison, scale: Scale, seed: u64, mut say: impl FnMut(&str)) {
    let mut run = Run::new(comparison, scale, seed);
    for (name, part) in PARTS {
        if run.comparison.has_seen_all() {
            break;
        }
        say(name);
        run.random = Random::of(run.seed, name);
        part(&mut run);
    }
}
