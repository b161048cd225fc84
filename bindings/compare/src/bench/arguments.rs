//! What the lookups are timed on: two pictures, and arguments drawn for them.

use crate::plain::{chain_texels, Document01, Lanes, Lent, CUBEMAP, LINEAR};
use crate::random::Random;
use crate::unit::{Directions, Picture};

/// The arguments of one call of any lookup.
pub struct Arguments {
    pub u: Lanes,
    pub v: Lanes,
    pub steps: Lanes,
    pub level: u32,
    pub directions: Directions,
    pub levels: [u32; 4],
    pub fractions: Lanes,
}

/// Two square pictures, and what the arguments are drawn from.
pub struct Scene {
    pub name: &'static str,
    /// The side of the plain picture, and that of the cubemap.
    pub sides: [u32; 2],
    /// Different calls of each lookup.
    pub calls: usize,
    /// The ends between which u and v lie.
    pub coordinates: [f64; 2],
    /// A step is two to a power between these, in texels of the cubemap.
    pub powers: [f64; 2],
    /// The levels that are asked for, the highest last.
    pub levels: &'static [u32],
}

/// Few calls, over and over, around pictures that a cache holds: texels and branches are warm.
pub const WARM: Scene = Scene {
    name: "Lookups, warm",
    sides: [512, 256],
    calls: 2048,
    coordinates: [-2.0, 3.0],
    powers: [-1.0, 4.0],
    levels: &[0, 1, 2, 3, 4, 5, 6, 7, 8],
};

/// Many calls, each once a round, all over large pictures: texels come from the outer caches, and branches surprise.
pub const RANDOM_PLACES: Scene = Scene {
    name: "Lookups at random places, three in four at level 0",
    sides: [1024, 512],
    calls: 200_000,
    coordinates: [-0.125, 1.125],
    powers: [-3.0, 1.0],
    levels: &[0, 0, 0, 1],
};

impl Scene {
    /// The plain picture and the cubemap.
    pub fn pictures(&self, random: &mut Random) -> [Chain; 2] {
        let [plain, cube] = self.sides;
        [Chain::drawn(random, LINEAR, plain), Chain::drawn(random, CUBEMAP, cube)]
    }

    /// The arguments of all calls.
    pub fn arguments(&self, random: &mut Random) -> Vec<Arguments> {
        (0..self.calls).map(|_| one(random, self)).collect()
    }
}

/// The arguments of one call.
fn one(random: &mut Random, scene: &Scene) -> Arguments {
    // Four neighbouring pixels: coordinates close together, one set of steps.
    let between = |random: &mut Random, ends: [f64; 2]| random.real(ends[0], ends[1]);
    let [u, v] = [scene.coordinates; 2].map(|ends| between(random, ends));
    let step = between(random, scene.powers).exp2() / scene.sides[1] as f64;
    let near = |random: &mut Random, at: f64| std::array::from_fn(|_| (at + step * random.unit()) as f32);
    let d: [f64; 3] = std::array::from_fn(|_| random.real(-1.0, 1.0));
    let level = random.pick(scene.levels);
    let highest = scene.levels[scene.levels.len() - 1];
    Arguments {
        u: near(random, u),
        v: near(random, v),
        steps: std::array::from_fn(|_| (step * random.real(0.5, 1.0)) as f32),
        level,
        directions: Directions {
            x: near(random, d[0]),
            y: near(random, d[1]),
            z: near(random, d[2]),
        },
        levels: std::array::from_fn(|_| random.pick(scene.levels)),
        fractions: std::array::from_fn(|_| random.real(0.0, highest as f64) as f32),
    }
}

/// A chain of drawn texels.
pub struct Chain {
    kind: u32,
    side: u32,
    texels: Vec<u32>,
}

impl Chain {
    /// A square one.
    fn drawn(random: &mut Random, kind: u32, side: u32) -> Chain {
        let texels = chain_texels::<Document01>(kind, side, side);
        Chain {
            kind,
            side,
            texels: (0..texels).map(|_| random.next() as u32).collect(),
        }
    }

    /// The picture as it is lent.
    pub fn lend(&self) -> Picture<'_> {
        Picture {
            number: 0,
            lent: Lent {
                kind: self.kind,
                width: self.side,
                height: self.side,
                texels: &self.texels,
            },
        }
    }
}
