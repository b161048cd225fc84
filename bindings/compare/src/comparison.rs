//! The comparison: each call is asked of the plain reading and of the others, and their outcomes are held against it.

use crate::call::{ask, Call, Outcome, NAMES, NUMBERS, UNTOUCHED};
use crate::left_out::left_out;
use crate::plain::{level_texels, Document01};
use crate::smaller::smaller;
use crate::text::{answered, Shown};
use crate::unit::Unit;

/// Kinds 0 to 4, and one more for calls without a kind and for refused kinds.
pub const KINDS: usize = 6;

/// Of so many differences of one call and kind, a smaller case is looked for.
const LOOKED_INTO: u64 = 200;

/// What was counted of one call for one kind.
#[derive(Clone, Default)]
pub struct Tally {
    pub calls: u64,
    pub refused: u64,
    /// Texels, or bytes of ranges.
    pub made: u64,
    pub differences: u64,
    pub smallest: Option<Shown>,
    /// Places left out of the comparison with the source, and those of them that differ.
    pub left_out: u64,
    pub listed: u64,
    pub smallest_listed: Option<Shown>,
    /// Accepted calls that the source was not asked, since it does not have them.
    pub not_asked: u64,
}

/// One that is held against the reading.
pub struct Other {
    pub name: String,
    pub unit: Box<dyn Unit>,
    /// The source: it is asked only accepted calls, and the listed differences are left out.
    pub is_source: bool,
    pub tallies: Vec<Tally>,
}

impl Other {
    /// One that nothing was asked yet.
    pub fn new(name: &str, unit: Box<dyn Unit>, is_source: bool) -> Other {
        Other {
            name: name.to_string(),
            unit,
            is_source,
            tallies: vec![Tally::default(); NAMES.len() * KINDS],
        }
    }

    /// All differences that are not listed ones.
    pub fn differences(&self) -> u64 {
        self.tallies.iter().map(|tally| tally.differences).sum()
    }

    /// The tally of a call for a kind; 5 stands for none and for refused ones.
    pub fn tally(&self, call: usize, kind: usize) -> &Tally {
        &self.tallies[call * KINDS + kind]
    }

    fn tally_of(&mut self, call: &Call) -> &mut Tally {
        let kind = call.kind().map_or(KINDS - 1, |kind| (kind as usize).min(KINDS - 1));
        &mut self.tallies[call.number() * KINDS + kind]
    }

    /// Asks one call, holds the outcome against the expected one and counts it.
    fn compare(&mut self, reading: &dyn Unit, call: &Call, expected: &Outcome, got: &mut Outcome) {
        ask(&*self.unit, call, got);
        let is_source = self.is_source;
        let tally = self.tally_of(call);
        tally.calls += 1;
        tally.refused += (expected.refusal != 0) as u64;
        tally.made += made(call, expected);
        if is_source {
            let than = tally.smallest_listed.as_ref().map_or(u64::MAX, |shown| shown.size);
            let out = left_out(call, expected, got, than);
            tally.left_out += out.places;
            tally.listed += out.differing;
            keep_smallest(&mut tally.smallest_listed, out.shown);
        }
        if expected == got {
            return;
        }
        tally.differences += 1;
        if tally.differences <= LOOKED_INTO {
            let found = smaller(reading, &*self.unit, is_source, call, expected, got);
            keep_smallest(&mut self.tally_of(call).smallest, Some(found));
        }
    }
}

/// Refusal numbers run to 15; 0 stands for an accepted call.
const REFUSALS: usize = 16;

/// The reading and those that are held against it.
pub struct Comparison {
    reading: Box<dyn Unit>,
    /// How often the reading gave each refusal number, by call.
    pub given: [[u64; REFUSALS]; NAMES.len()],
    /// How often it found that a chain or a level follows, and how often that it does not, by call.
    pub verdicts: [[u64; 2]; NAMES.len()],
    pub others: Vec<Other>,
    /// Asks one that differed no more.
    pub until_seen: bool,
    expected: Outcome,
    got: Outcome,
}

impl Comparison {
    /// A comparison with a reading, and nobody held against it yet.
    pub fn new(reading: Box<dyn Unit>) -> Comparison {
        Comparison {
            reading,
            given: [[0; REFUSALS]; NAMES.len()],
            verdicts: [[0; 2]; NAMES.len()],
            others: Vec::new(),
            until_seen: false,
            expected: Outcome::new(),
            got: Outcome::new(),
        }
    }

    /// Holds one more against the reading.
    pub fn hold(&mut self, name: &str, unit: Box<dyn Unit>, is_source: bool) {
        self.others.push(Other::new(name, unit, is_source));
    }

    /// Whether nobody is asked any more.
    pub fn has_seen_all(&self) -> bool {
        self.until_seen && self.others.iter().all(|other| other.differences() > 0)
    }

    /// Asks everybody one call.
    pub fn call(&mut self, call: &Call) {
        if self.has_seen_all() {
            return;
        }
        ask_reading(&*self.reading, call, &mut self.expected);
        self.given[call.number()][self.expected.refusal as usize] += 1;
        if let Some(follows) = follows(call, &self.expected) {
            self.verdicts[call.number()][!follows as usize] += 1;
        }
        let refused = self.expected.refusal != 0;
        for other in &mut self.others {
            let seen = self.until_seen && other.differences() > 0;
            if seen || (other.is_source && refused) {
                continue;
            }
            if other.is_source && !other.unit.has(call) {
                other.tally_of(call).not_asked += 1;
            } else {
                other.compare(&*self.reading, call, &self.expected, &mut self.got);
            }
        }
    }
}

/// Asks the reading one call. It stops the run where it answers what no call gives, or refuses and changes something.
pub fn ask_reading(reading: &dyn Unit, call: &Call, outcome: &mut Outcome) {
    ask(reading, call, outcome);
    assert!(
        NUMBERS.contains(&outcome.refusal),
        "the reading {} here: {call}",
        answered(outcome.refusal)
    );
    assert!(refuses_cleanly(call, outcome), "the reading changed something: {call}");
}

/// A refusal answers the number only and no lent buffer changes.
fn refuses_cleanly(call: &Call, outcome: &Outcome) -> bool {
    let untouched = outcome.words.iter().all(|word| *word == UNTOUCHED)
        && outcome.buffer.starts_with(call.before())
        && outcome.ranges.starts_with(call.ranges_before());
    outcome.refusal == 0 || untouched
}

/// What an accepted check found.
fn follows(call: &Call, outcome: &Outcome) -> Option<bool> {
    let is_check = matches!(call, Call::CheckChain { .. } | Call::CheckLevel { .. });
    (is_check && outcome.refusal == 0).then_some(outcome.words[0] == 1)
}

/// Keeps the smaller of two, the earlier where they are as large.
fn keep_smallest(kept: &mut Option<Shown>, found: Option<Shown>) {
    if let Some(found) = found {
        if kept.as_ref().is_none_or(|kept| found.size < kept.size) {
            *kept = Some(found);
        }
    }
}

/// How many texels a call made, or bytes of ranges, by the count that it answered; a chain's level 0 was there before.
fn made(call: &Call, outcome: &Outcome) -> u64 {
    if outcome.refusal != 0 {
        return 0;
    }
    let written = outcome.words[0] as u64;
    match call {
        Call::GenerateMipmaps {
            kind, width, height, ..
        } => written - level_texels::<Document01>(*kind, *width, *height, 0) as u64,
        Call::CutCross { .. } | Call::Cut { .. } | Call::BuildRanges { .. } => written,
        Call::ReplaceTexel { .. } => 8,
        _ => 0,
    }
}
