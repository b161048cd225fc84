//! Why a call did nothing.

use std::error::Error;
use std::fmt;

/// A call refused its input, by the paper's number. Nothing was handed out and nothing changed.
///
/// ```
/// use swathecold::{level_sizes, TextureType};
/// let refused = level_sizes(TextureType::Linear, 4097, 1, 0).unwrap_err();
/// assert_eq!(refused.number(), 2);
/// assert_eq!(
///     refused.to_string(),
///     "refused 2: a side of the picture is 0 or above 4096; scale the picture to sides from 1 to 4096"
/// );
/// ```
///
/// 9 is retired: no call gives it, and the number is never used again.
#[derive(Clone, Copy, Debug, PartialEq, Eq, Hash)]
pub struct Refusal(u32);

impl Refusal {
    /// A place outside the picture.
    pub(crate) const OUTSIDE: Refusal = Refusal(14);

    /// `Ok` where the number is 0.
    pub(crate) fn of(number: u32) -> Result<(), Refusal> {
        match number {
            0 => Ok(()),
            n => Err(Refusal(n)),
        }
    }

    /// The paper's number.
    pub fn number(self) -> u32 {
        self.0
    }

    /// What was wrong, and what to do about it.
    fn words(self) -> (&'static str, &'static str) {
        match self.0 {
            1 => ("the kind is unknown", "use 0 to 4"),
            2 => ("a side of the picture is 0 or above 4096", "scale the picture to sides from 1 to 4096"),
            3 => (
                "a buffer is too short",
                "lend as many texels as level_sizes counts in the chain, and for ranges eight bytes a tile, edge tiles included",
            ),
            4 => ("a wrap code is unknown", "use 10497, 33071, 33648, or 0, which is Repeat, where the file gives none"),
            5 => (
                "a coordinate, step or fractional level is not finite, or a coordinate is beyond 2048",
                "mend the lane that has it",
            ),
            6 => ("the level is above the top level", "ask for a level up to floor(log2(larger side))"),
            7 => ("a direction is not finite, or too short or too long to have a face", "scale it to a length near 1"),
            8 => (
                "the call does not take this kind or this face",
                "use a call that takes the kind, or a face that it has: 0 to 5 of a cubemap, else 0",
            ),
            9 => ("the number is retired, and no call gives it", "see that this version's library is linked, not an older one"),
            10 => ("the cross's faces have sides outside 1 to 4096", "lend a cross of 4 by 3 faces"),
            11 => (
                "the cut is not aligned, is empty or is not inside",
                "use a corner and sides that are multiples of 2 to the order",
            ),
            14 => ("the place lies outside the picture", "use an x below the width and a y below the height"),
            15 => ("the packing mode is unknown", "use 0, which truncates, or 1, which takes the nearest"),
            _ => ("the number is none of the paper's", "report this"),
        }
    }
}

impl fmt::Display for Refusal {
    fn fmt(&self, f: &mut fmt::Formatter<'_>) -> fmt::Result {
        let (what, mend) = self.words();
        write!(f, "refused {}: {what}; {mend}", self.0)
    }
}

impl Error for Refusal {}

#[cfg(test)]
mod tests {
    use super::Refusal;

    #[test]
    fn a_retired_number_says_so() {
        let said = Refusal::of(9).unwrap_err().to_string();
        assert_eq!(
            said,
            "refused 9: the number is retired, and no call gives it; see that this version's library is linked, not an older one"
        );
    }
}
