//! What the unit found in a chain that another tool made.

use std::error::Error;
use std::fmt;

use crate::calls;
use crate::refusal::Refusal;

/// Whether a chain, or one level of it, follows from what stands before it, or its first wrong texel.
///
/// ```
/// use swathecold::{check_chain, Packing, Picture, TextureType, Verdict};
/// let grain: Vec<u32> = (0..64u32).map(|i| (i * i) << 16 | 0xFF).collect();
/// let mut chain = Picture::new(TextureType::Linear, 8, 8, &grain)?.texels().to_vec();
/// let judged = |chain: &[u32]| check_chain(TextureType::Linear, 8, 8, Packing::Truncating, chain);
/// assert_eq!(judged(&chain)?, Verdict::Follows);
///
/// chain[64 + 5] += 1;
/// let Verdict::WrongAt { place, level, x, y, found, expected, .. } = judged(&chain)? else { panic!("one is wrong") };
/// assert_eq!((place, level, x, y), (69, 1, 1, 1));
/// assert_eq!(found, expected + 1);
/// # Ok::<(), swathecold::Refusal>(())
/// ```
#[derive(Clone, Copy, Debug, PartialEq, Eq)]
pub enum Verdict {
    /// Every texel is what the level before makes.
    Follows,
    /// A texel is another, and none before it is.
    WrongAt {
        /// Its index in the chain.
        place: usize,
        level: u32,
        /// 0 to 5 of a cubemap, else 0.
        face: u32,
        x: u32,
        y: u32,
        /// The texel that stands there.
        found: u32,
        /// The texel that the unit makes of the level before, as that is found.
        expected: u32,
    },
}

impl Verdict {
    pub fn follows(&self) -> bool {
        *self == Verdict::Follows
    }

    /// The unit's two numbers for an accepted chain, with what there is to say of the wrong texel. Nothing is refused.
    pub(crate) fn of(
        [follows, place]: [u64; 2],
        kind: u32,
        width: u32,
        height: u32,
        packing: u32,
        texels: &[u32],
    ) -> Result<Verdict, Refusal> {
        if follows == 1 {
            return Ok(Verdict::Follows);
        }
        let place = place as usize;
        let sizes = |level: u32| calls::level_sizes(kind, width, height, level);
        let level = (1..).take_while(|level| sizes(*level).is_ok_and(|sizes| sizes.start <= place)).count() as u32;
        let (before, own) = (sizes(level - 1)?, sizes(level)?);
        // the levels from the one before on are the chain of a picture of its sides: the unit fills it again
        let mut again = texels[before.start..before.total].to_vec();
        calls::generate_mipmaps(kind, before.width, before.height, packing, &mut again)?;
        let within = (place - own.start) as u32;
        Ok(Verdict::WrongAt {
            place,
            level,
            face: within / (own.width * own.height),
            x: within % own.width,
            y: within / own.width % own.height,
            found: texels[place],
            expected: again[place - before.start],
        })
    }
}

impl fmt::Display for Verdict {
    fn fmt(&self, f: &mut fmt::Formatter<'_>) -> fmt::Result {
        match self {
            Verdict::Follows => write!(f, "follows"),
            Verdict::WrongAt { place, level, face, x, y, found, expected } => write!(
                f,
                "wrong at texel {place} (level {level}, face {face}, x {x}, y {y}): found {found:08X}, expected {expected:08X}"
            ),
        }
    }
}

/// Why [`Picture::from_chain`](crate::Picture::from_chain) took no picture.
#[derive(Clone, Copy, Debug, PartialEq, Eq)]
pub enum NotTaken {
    /// The chain was not judged.
    Refused(Refusal),
    /// It was, and this texel is wrong: never [`Verdict::Follows`].
    Wrong(Verdict),
}

impl From<Refusal> for NotTaken {
    fn from(refused: Refusal) -> NotTaken {
        NotTaken::Refused(refused)
    }
}

impl fmt::Display for NotTaken {
    fn fmt(&self, f: &mut fmt::Formatter<'_>) -> fmt::Result {
        match self {
            NotTaken::Refused(refused) => refused.fmt(f),
            NotTaken::Wrong(verdict) => {
                write!(f, "{verdict}; name the packing that made the levels, or have them made again by Picture::with_packing")
            }
        }
    }
}

impl Error for NotTaken {}
