//! Wrap codes and wrapped texel numbers, by whole-number remainders.

use super::rules::Rules;

/// The three wrap modes.
#[derive(Clone, Copy, PartialEq, Debug)]
pub enum Wrap {
    Repeat,
    ClampToEdge,
    MirroredRepeat,
}

/// 10497 Repeat, 33071 ClampToEdge, 33648 MirroredRepeat, 0 = not given; 4: wrap code unknown.
pub fn of_code<R: Rules>(code: u32) -> Option<Wrap> {
    match code {
        10497 => Some(Wrap::Repeat),
        33071 => Some(Wrap::ClampToEdge),
        33648 => Some(Wrap::MirroredRepeat),
        0 => Some(R::NOT_GIVEN),
        _ => None,
    }
}

/// The place that the texel number t and side d give.
pub fn wrapped<R: Rules>(wrap: Wrap, t: i64, d: u32) -> i64 {
    match wrap {
        Wrap::Repeat => R::repeat(t, d as i64),
        Wrap::ClampToEdge => R::clamp(t, d as i64),
        Wrap::MirroredRepeat => R::mirrored(t, d as i64),
    }
}

/// The two wrap codes of a call.
#[derive(Clone, Copy)]
pub struct Wraps {
    pub s: Option<Wrap>,
    pub t: Option<Wrap>,
}

impl Wraps {
    /// The modes of two codes.
    pub fn of<R: Rules>(codes: [u32; 2]) -> Wraps {
        Wraps {
            s: of_code::<R>(codes[0]),
            t: of_code::<R>(codes[1]),
        }
    }

    /// 4: wrap code unknown.
    pub fn unknown(&self) -> bool {
        self.s.is_none() || self.t.is_none()
    }

    /// The texel place of a pair of texel numbers; codes are looked at before.
    pub fn place<R: Rules>(&self, x: i64, y: i64, width: u32, height: u32) -> (i64, i64) {
        let known = |wrap: Option<Wrap>| wrap.expect("a known code");
        (
            wrapped::<R>(known(self.s), x, width),
            wrapped::<R>(known(self.t), y, height),
        )
    }
}
