//! A call and a difference in words, so that a person can make the call again.

use crate::call::{Call, Outcome, NUMBERS, PANICKED};
use crate::plain::{Lanes, Lent};
use crate::unit::Directions;
use std::fmt::{Display, Formatter, Result, Write};

/// At most this many texels or bytes are written out.
const WRITTEN_OUT: usize = 32;

/// Four floats, each as a number and as its bits.
struct Floats<'a>(&'a Lanes);

impl Display for Floats<'_> {
    fn fmt(&self, f: &mut Formatter<'_>) -> Result {
        let each: Vec<String> = self.0.iter().map(|x| format!("{x:e} ({:08X})", x.to_bits())).collect();
        write!(f, "[{}]", each.join(", "))
    }
}

/// Texels as eight capital hex digits each, or their number.
struct Texels<'a>(&'a [u32]);

impl Display for Texels<'_> {
    fn fmt(&self, f: &mut Formatter<'_>) -> Result {
        if self.0.len() > WRITTEN_OUT {
            return write!(f, "{} texels", self.0.len());
        }
        let each: Vec<String> = self.0.iter().map(|texel| format!("{texel:08X}")).collect();
        write!(f, "[{}]", each.join(" "))
    }
}

/// Bytes as two capital hex digits each, or their number.
struct Bytes<'a>(&'a [u8]);

impl Display for Bytes<'_> {
    fn fmt(&self, f: &mut Formatter<'_>) -> Result {
        if self.0.len() > WRITTEN_OUT {
            return write!(f, "{} bytes", self.0.len());
        }
        let each: Vec<String> = self.0.iter().map(|byte| format!("{byte:02X}")).collect();
        write!(f, "[{}]", each.join(" "))
    }
}

/// Kind, sides and texels.
fn picture(lent: &Lent) -> String {
    format!(
        "kind {}, {} by {}, {}",
        lent.kind,
        lent.width,
        lent.height,
        Texels(lent.texels)
    )
}

/// The three components.
fn directions(d: &Directions) -> String {
    format!("x {}, y {}, z {}", Floats(&d.x), Floats(&d.y), Floats(&d.z))
}

impl Display for Call<'_> {
    fn fmt(&self, f: &mut Formatter<'_>) -> Result {
        write!(f, "{}: {}", self.name(), arguments(self))
    }
}

/// All arguments of a call.
fn arguments(call: &Call) -> String {
    match call {
        Call::LevelSizes {
            kind,
            width,
            height,
            level,
        } => format!("kind {kind}, {width} by {height}, level {level}"),
        Call::GenerateMipmaps {
            kind,
            width,
            height,
            mode,
            texels,
        } => format!("kind {kind}, {width} by {height}, mode {mode}, {}", Texels(texels)),
        Call::CutCross {
            width,
            height,
            bytes,
            faces,
        } => format!(
            "{width} by {height}, {} bytes in, {} texels out",
            bytes.len(),
            faces.len()
        ),
        Call::Cut { source, cut, target } => {
            format!("{}, {cut:?}, target {} texels", picture(source), target.len())
        }
        Call::LevelView {
            picture: p,
            level,
            face,
        } => format!("{}, level {level}, face {face}", picture(p)),
        Call::ComputeMipLevel { width, height, steps } => {
            format!("{width} by {height}, steps {}", Floats(steps))
        }
        Call::IrradianceSh4 { picture: p } => picture(p),
        Call::CheckChain { picture: p, mode } => format!("{}, mode {mode}", picture(p)),
        Call::CheckLevel {
            picture: p,
            mode,
            level,
        } => format!("{}, mode {mode}, level {level}", picture(p)),
        Call::BuildRanges { picture: p, ranges } => format!("{}, ranges {}", picture(p), Bytes(ranges)),
        Call::ReplaceTexel {
            picture: p,
            ranges,
            replacement: r,
        } => format!(
            "{}, ranges {}, at ({}, {}) {:08X}",
            picture(p),
            Bytes(ranges),
            r.x,
            r.y,
            r.texel
        ),
        _ => lookup_arguments(call),
    }
}

/// All arguments of a lookup that answers floats.
fn lookup_arguments(call: &Call) -> String {
    let lent = call.picture().map_or(String::new(), |p| picture(&p.lent) + ", ");
    match call {
        Call::Sample4Rgb { codes, u, v, steps, .. } | Call::Sample4Alpha { codes, u, v, steps, .. } => format!(
            "{lent}codes {codes:?}, u {}, v {}, steps {}",
            Floats(u),
            Floats(v),
            Floats(steps)
        ),
        Call::SampleBilinearRgb {
            codes,
            u,
            v,
            level,
            faces,
            ..
        } => format!(
            "{lent}codes {codes:?}, u {}, v {}, level {level}, faces {faces:?}",
            Floats(u),
            Floats(v)
        ),
        Call::SampleBilinearAlpha { codes, u, v, level, .. } => {
            format!("{lent}codes {codes:?}, u {}, v {}, level {level}", Floats(u), Floats(v))
        }
        Call::CubemapUvFromNormal { directions: d } => directions(d),
        Call::SampleCubemapRgb {
            directions: d, levels, ..
        } => format!("{lent}{}, levels {levels:?}", directions(d)),
        Call::SampleCubemapTrilinearRgb {
            directions: d, levels, ..
        } => format!("{lent}{}, levels {}", directions(d), Floats(levels)),
        _ => String::new(),
    }
}

/// The first thing in which two outcomes differ, where they do.
pub fn first_difference(reading: &Outcome, other: &Outcome) -> String {
    let mut text = String::new();
    if reading.refusal != other.refusal {
        let _ = write!(text, "{} for {}; ", answered(other.refusal), reading.refusal);
    }
    if let Some(i) = first(&reading.words, &other.words) {
        let (a, b) = (reading.words[i], other.words[i]);
        let _ = write!(text, "word {i} of the answer is {b:08X} for {a:08X}; ");
    }
    if let Some(i) = first(&reading.buffer, &other.buffer) {
        let (a, b) = (reading.buffer[i], other.buffer[i]);
        let _ = write!(text, "texel {i} left is {b:08X} for {a:08X}; ");
    }
    if let Some(i) = first(&reading.ranges, &other.ranges) {
        let (a, b) = (reading.ranges[i], other.ranges[i]);
        let _ = write!(text, "byte {i} of the ranges left is {b:02X} for {a:02X}; ");
    }
    text
}

/// A number that was answered, in words.
pub fn answered(number: u32) -> String {
    match number {
        PANICKED => "panics".to_string(),
        _ if NUMBERS.contains(&number) => format!("answers {number}"),
        _ => format!("answers {number}, which no call gives,"),
    }
}

/// The first place where two rows differ.
pub fn first<T: PartialEq>(a: &[T], b: &[T]) -> Option<usize> {
    a.iter().zip(b).position(|(a, b)| a != b)
}

/// A call that shows a difference, in words, and how large it is.
#[derive(Clone)]
pub struct Shown {
    pub size: u64,
    pub text: String,
}

/// A difference in words.
pub fn shown(call: &Call, expected: &Outcome, got: &Outcome) -> Shown {
    Shown {
        size: size(call),
        text: format!("{call}\n      {}", first_difference(expected, got)),
    }
}

/// How large a call is: its picture first, then how many of its lanes differ.
pub fn size(call: &Call) -> u64 {
    let (width, height) = call.sides();
    let area = (width as u64).min(1 << 20) * (height as u64).min(1 << 20);
    area * 8 + different_lanes(call)
}

/// How many lanes are not as the first.
fn different_lanes(call: &Call) -> u64 {
    let of = |lanes: &Lanes| lanes.map(f32::to_bits);
    let differs = |parts: &[[u32; 4]]| (1..4).filter(|&lane| parts.iter().any(|p| p[lane] != p[0])).count() as u64;
    let d = |d: &Directions| [of(&d.x), of(&d.y), of(&d.z)];
    match call {
        Call::Sample4Rgb { u, v, .. } | Call::Sample4Alpha { u, v, .. } | Call::SampleBilinearAlpha { u, v, .. } => {
            differs(&[of(u), of(v)])
        }
        Call::SampleBilinearRgb { u, v, faces, .. } => differs(&[of(u), of(v), *faces]),
        Call::CubemapUvFromNormal { directions } => differs(&d(directions)),
        Call::SampleCubemapRgb { directions, levels, .. } => differs(&d(directions)).max(differs(&[*levels])),
        Call::SampleCubemapTrilinearRgb { directions, levels, .. } => {
            differs(&d(directions)).max(differs(&[of(levels)]))
        }
        _ => 0,
    }
}
