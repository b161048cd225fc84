//! One record: 36 words of 32 bits.

use super::generator::checksum;
use crate::call::{Call, Outcome};
use crate::plain::Lanes;

/// Words of a record.
pub const WORDS: usize = 36;

/// Where the arguments begin that not every call has.
pub const ARGUMENTS: usize = 6;

/// Where a check's record says how its chain was prepared, in three words: 0 for levels as the stream has them, else the mode that they
/// were made by and 1; the place of a texel that was replaced then; what it was replaced by.
pub const PREPARED: usize = 7;

/// A place that no buffer has: no texel was replaced.
pub const NO_PLACE: u32 = u32::MAX;

/// A chain that was not prepared.
const AS_DRAWN: [u32; 3] = [0, NO_PLACE, 0];

/// Where a mode stands: the last of the arguments, behind the texels that a chain may have there.
pub const MODE: usize = 21;

/// Where the answer begins: the refusal, twelve words, the sum over the buffer that was written.
pub const ANSWER: usize = 22;

/// A record.
pub type Record = [u32; WORDS];

/// Puts words one behind the other.
struct Words<'a> {
    record: &'a mut Record,
    place: usize,
}

impl Words<'_> {
    fn at(&mut self, place: usize) -> &mut Self {
        self.place = place;
        self
    }

    fn put(&mut self, words: &[u32]) -> &mut Self {
        self.record[self.place..self.place + words.len()].copy_from_slice(words);
        self.place += words.len();
        self
    }

    fn floats(&mut self, lanes: &Lanes) -> &mut Self {
        self.put(&lanes.map(f32::to_bits))
    }
}

/// A call whose buffers come from a seed, and its outcome.
pub fn record(seed: u32, call: &Call, outcome: &Outcome) -> Record {
    let mut record = [0; WORDS];
    let (width, height) = call.sides();
    record[..ARGUMENTS].copy_from_slice(&[
        call.number() as u32,
        seed,
        call.kind().unwrap_or(0),
        width,
        height,
        length_read(call) as u32,
    ]);
    put_arguments(&mut record, call);
    record[ANSWER..].copy_from_slice(&answer(call, outcome));
    record
}

/// The length of the buffer that is read: texels, or bytes of a cross.
fn length_read(call: &Call) -> usize {
    match call {
        Call::GenerateMipmaps { texels, .. } => texels.len(),
        Call::CutCross { bytes, .. } => bytes.len(),
        Call::Cut { source, .. } => source.texels.len(),
        Call::LevelView { picture, .. }
        | Call::BuildRanges { picture, .. }
        | Call::ReplaceTexel { picture, .. }
        | Call::IrradianceSh4 { picture }
        | Call::CheckChain { picture, .. }
        | Call::CheckLevel { picture, .. } => picture.texels.len(),
        _ => call.picture().map_or(0, |picture| picture.lent.texels.len()),
    }
}

/// The arguments that not every call has.
fn put_arguments(record: &mut Record, call: &Call) {
    let mut words = Words {
        record,
        place: ARGUMENTS,
    };
    match call {
        Call::LevelSizes { level, .. } => words.put(&[*level]),
        Call::GenerateMipmaps { mode, .. } => words.at(MODE).put(&[*mode]),
        Call::CheckChain { mode, .. } => words.at(PREPARED).put(&AS_DRAWN).at(MODE).put(&[*mode]),
        Call::CheckLevel { mode, level, .. } => words.put(&[*level]).put(&AS_DRAWN).at(MODE).put(&[*mode]),
        Call::IrradianceSh4 { .. } => &mut words,
        Call::CutCross { faces, .. } => words.put(&[faces.len() as u32]),
        Call::Cut { cut, target, .. } => words.put(&[
            cut.order,
            cut.corner_x,
            cut.corner_y,
            cut.width,
            cut.height,
            target.len() as u32,
        ]),
        Call::LevelView { level, face, .. } => words.put(&[*level, *face]),
        Call::ComputeMipLevel { steps, .. } => words.floats(steps),
        Call::Sample4Rgb { codes, u, v, steps, .. } | Call::Sample4Alpha { codes, u, v, steps, .. } => {
            words.put(codes).floats(u).floats(v).floats(steps)
        }
        Call::SampleBilinearRgb {
            codes,
            u,
            v,
            level,
            faces,
            ..
        } => words.put(codes).floats(u).floats(v).put(&[*level]).put(faces),
        Call::SampleBilinearAlpha { codes, u, v, level, .. } => words.put(codes).floats(u).floats(v).put(&[*level]),
        Call::CubemapUvFromNormal { directions: d } => words.floats(&d.x).floats(&d.y).floats(&d.z),
        Call::SampleCubemapRgb {
            directions: d, levels, ..
        } => words.floats(&d.x).floats(&d.y).floats(&d.z).put(levels),
        Call::SampleCubemapTrilinearRgb {
            directions: d, levels, ..
        } => words.floats(&d.x).floats(&d.y).floats(&d.z).floats(levels),
        Call::BuildRanges { ranges, .. } => words.put(&[ranges.len() as u32]),
        Call::ReplaceTexel {
            ranges, replacement: r, ..
        } => words.put(&[ranges.len() as u32, r.x, r.y, r.texel]),
    };
}

/// The answer: the refusal, twelve words that are 0 where there is nothing to say, the sum over the written buffer. A
/// replacement writes two and answers nothing else: the sum over its ranges is the first of the twelve words.
pub fn answer(call: &Call, outcome: &Outcome) -> [u32; WORDS - ANSWER] {
    let mut words = [0; WORDS - ANSWER];
    words[0] = outcome.refusal;
    let left = &outcome.buffer[..call.before().len()];
    let ranges = &outcome.ranges[..call.ranges_before().len()];
    match call {
        Call::GenerateMipmaps { .. } | Call::CutCross { .. } | Call::Cut { .. } => words[13] = checksum(left),
        Call::BuildRanges { .. } => words[13] = checksum(ranges),
        Call::ReplaceTexel { .. } => (words[1], words[13]) = (checksum(ranges), checksum(left)),
        _ => (),
    }
    if outcome.refusal == 0 {
        let wide = |count: usize| (0..count).map(|i| outcome.words[2 * i]).collect::<Vec<u32>>();
        let said = match call {
            Call::LevelSizes { .. } => wide(4),
            Call::LevelView { .. } | Call::CheckChain { .. } | Call::CheckLevel { .. } => wide(2),
            Call::GenerateMipmaps { .. } | Call::CutCross { .. } | Call::Cut { .. } | Call::BuildRanges { .. } => {
                wide(1)
            }
            Call::ReplaceTexel { .. } => Vec::new(),
            Call::ComputeMipLevel { .. } => outcome.words[..1].to_vec(),
            Call::Sample4Alpha { .. } | Call::SampleBilinearAlpha { .. } => outcome.words[..4].to_vec(),
            Call::CubemapUvFromNormal { .. } => [&outcome.words[..8], &outcome.words[10..14]].concat(),
            _ => outcome.words[..12].to_vec(),
        };
        words[1..1 + said.len()].copy_from_slice(&said);
    }
    words
}
