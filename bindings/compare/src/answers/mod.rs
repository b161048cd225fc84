//! A stored sample of answers: calls with their arguments and what the plain reading answers, as a list of bytes that a
//! program without Rust can replay. ANSWERS.md describes the list word by word; this is the same in code.

mod cases;
mod checks;
mod generator;
mod packing;
mod record;
mod replay;

use crate::call::NUMBERS;

pub use cases::sample;
pub use generator::{bytes, checksum, texels};
pub use record::{Record, ANSWER, ARGUMENTS, MODE, WORDS};
pub use replay::{agrees, call_of};

/// No lent buffer of the list is longer: texels, and bytes of a cross or of ranges.
pub const LONGEST: usize = 8192;

/// What a buffer that is only written holds before the call.
pub const BEFORE: u32 = 0xC5C5_5C5C;

/// The mark of the list: SWAN.
pub const MARK: u32 = u32::from_le_bytes(*b"SWAN");

/// The version of the list.
pub const VERSION: u32 = 1;

/// The list as bytes: a head of one record's length, then the records.
pub fn to_bytes(records: &[Record]) -> Vec<u8> {
    let mut head = [0; WORDS];
    head[..5].copy_from_slice(&[MARK, VERSION, records.len() as u32, WORDS as u32, LONGEST as u32]);
    let all = std::iter::once(&head).chain(records);
    all.flat_map(|record| record.iter().flat_map(|word| word.to_le_bytes()))
        .collect()
}

/// The records of a list, or what is wrong with its bytes.
pub fn from_bytes(bytes: &[u8]) -> Result<Vec<Record>, String> {
    let words: Vec<u32> = bytes
        .chunks_exact(4)
        .map(|four| u32::from_le_bytes(four.try_into().unwrap()))
        .collect();
    if words.len() < WORDS || words[0] != MARK || words[1] != VERSION || words[3] != WORDS as u32 {
        return Err("not a list of answers".to_string());
    }
    let length = (words[2] as usize + 1) * WORDS;
    if words.len() != length || bytes.len() != 4 * length {
        return Err(format!("{} bytes for a list of {} records", bytes.len(), words[2]));
    }
    let records: Vec<Record> = words[WORDS..]
        .chunks_exact(WORDS)
        .map(|record| record.try_into().unwrap())
        .collect();
    match records.iter().position(|record| !NUMBERS.contains(&record[ANSWER])) {
        Some(i) => Err(format!(
            "record {i} answers {}, which no call gives",
            records[i][ANSWER]
        )),
        None => Ok(records),
    }
}
