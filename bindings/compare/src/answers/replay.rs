//! From a record back to the call, and the call asked of a unit.

use super::generator::{bytes, texels};
use super::record::{answer, Record, ANSWER, ARGUMENTS, MODE, PREPARED};
use super::BEFORE;
use crate::call::{ask, Call, Outcome};
use crate::plain::{Cut, Lanes, Lent, Replacement};
use crate::unit::{Directions, Picture, Unit};

/// The buffers of a record: the texels or bytes that are read, the ranges, and what is only written as it is before.
pub struct Buffers {
    texels: Vec<u32>,
    bytes: Vec<u8>,
    ranges: Vec<u8>,
    written: Vec<u32>,
}

impl Buffers {
    /// The buffers of a record. Seed 0: the texels stand in the record, and behind them all are 0. A check's chain is prepared by the
    /// unit that is asked.
    pub fn of(unit: &dyn Unit, record: &Record) -> Buffers {
        let (call, seed, length) = (record[0], record[1], record[5] as usize);
        let is_cross = call == 2;
        let of_seed = if is_cross || seed == 0 {
            Vec::new()
        } else {
            texels(seed, length)
        };
        let written = match call {
            2 => record[ARGUMENTS] as usize,
            3 => record[ARGUMENTS + 5] as usize,
            _ => 0,
        };
        let has_ranges = matches!(call, 13 | 14);
        let mut buffers = Buffers {
            texels: of_seed,
            bytes: if is_cross { bytes(seed, length) } else { Vec::new() },
            ranges: bytes(seed, if has_ranges { record[ARGUMENTS] as usize } else { 0 }),
            written: vec![BEFORE; written],
        };
        if seed == 0 && !is_cross {
            let end = if call == 1 { MODE } else { ANSWER };
            buffers.texels = record[ARGUMENTS..end].to_vec();
            buffers.texels.resize(length, 0);
        }
        if matches!(call, 16 | 17) {
            prepare(unit, record, &mut buffers.texels);
        }
        buffers
    }
}

/// Prepares a check's chain: has the unit make its levels, where they are to be made, and replaces a texel, where the buffer has it.
fn prepare(unit: &dyn Unit, record: &Record, texels: &mut [u32]) {
    let [made, place, texel] = [0, 1, 2].map(|i| record[PREPARED + i]);
    if made > 0 {
        unit.generate_mipmaps(record[2], record[3], record[4], made - 1, texels, &mut 0);
    }
    if let Some(replaced) = texels.get_mut(place as usize) {
        *replaced = texel;
    }
}

/// Four words of a record as floats.
fn lanes(record: &Record, place: usize) -> Lanes {
    four(record, place).map(f32::from_bits)
}

/// Four words of a record.
fn four(record: &Record, place: usize) -> [u32; 4] {
    std::array::from_fn(|lane| record[ARGUMENTS + place + lane])
}

/// The call of a record, over its buffers.
#[rustfmt::skip]
pub fn call_of<'a>(record: &Record, buffers: &'a Buffers) -> Call<'a> {
    let [kind, width, height] = [record[2], record[3], record[4]];
    let argument = |i: usize| record[ARGUMENTS + i];
    let lent = Lent { kind, width, height, texels: &buffers.texels };
    let picture = Picture { number: 0, lent };
    let codes = [argument(0), argument(1)];
    let [u, v] = [lanes(record, 2), lanes(record, 6)];
    let directions = Directions { x: lanes(record, 0), y: lanes(record, 4), z: lanes(record, 8) };
    match record[0] {
        0 => Call::LevelSizes { kind, width, height, level: argument(0) },
        1 => Call::GenerateMipmaps { kind, width, height, mode: record[MODE], texels: &buffers.texels },
        2 => Call::CutCross { width, height, bytes: &buffers.bytes, faces: &buffers.written },
        3 => Call::Cut {
            source: lent,
            cut: Cut {
                order: argument(0), corner_x: argument(1), corner_y: argument(2),
                width: argument(3), height: argument(4),
            },
            target: &buffers.written,
        },
        4 => Call::LevelView { picture: lent, level: argument(0), face: argument(1) },
        5 => Call::ComputeMipLevel { width, height, steps: lanes(record, 0) },
        6 => Call::Sample4Rgb { picture, codes, u, v, steps: lanes(record, 10) },
        7 => Call::Sample4Alpha { picture, codes, u, v, steps: lanes(record, 10) },
        8 => Call::SampleBilinearRgb { picture, codes, u, v, level: argument(10), faces: four(record, 11) },
        9 => Call::SampleBilinearAlpha { picture, codes, u, v, level: argument(10) },
        10 => Call::CubemapUvFromNormal { directions },
        11 => Call::SampleCubemapRgb { picture, directions, levels: four(record, 12) },
        12 => Call::SampleCubemapTrilinearRgb { picture, directions, levels: lanes(record, 12) },
        13 => Call::BuildRanges { picture: lent, ranges: &buffers.ranges },
        14 => Call::ReplaceTexel {
            picture: lent,
            ranges: &buffers.ranges,
            replacement: Replacement { x: argument(1), y: argument(2), texel: argument(3) },
        },
        15 => Call::IrradianceSh4 { picture: lent },
        16 => Call::CheckChain { picture: lent, mode: record[MODE] },
        _ => Call::CheckLevel { picture: lent, mode: record[MODE], level: argument(0) },
    }
}

/// Whether a unit answers as the record says.
pub fn agrees(unit: &dyn Unit, record: &Record) -> bool {
    let buffers = Buffers::of(unit, record);
    let call = call_of(record, &buffers);
    let mut outcome = Outcome::new();
    ask(unit, &call, &mut outcome);
    answer(&call, &outcome) == record[ANSWER..]
}
