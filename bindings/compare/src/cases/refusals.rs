//! Every refusal of every call, alone and together with every choice of the others: the order is part of the contract.

use super::spoil::{accepted, TARGET};
use super::Run;
use crate::plain::{NEAREST, TRUNCATING};

/// The refusals that each call can give, by its number; a second 3 is that of the second buffer.
pub const OF_CALL: [&[u32]; 18] = [
    &[1, 2, 6],
    &[1, 2, 3, 15],
    &[10, 3, TARGET],
    &[1, 2, 3, 8, 11, TARGET],
    &[1, 2, 3, 8, 6],
    &[2, 5],
    &[1, 2, 3, 8, 4, 5],
    &[1, 2, 3, 8, 4, 5],
    &[1, 2, 3, 8, 4, 6, 5],
    &[1, 2, 3, 8, 4, 6, 5],
    &[7],
    &[1, 2, 3, 8, 7],
    &[1, 2, 3, 8, 7, 5],
    &[1, 2, 3, TARGET, 8],
    &[1, 2, 3, TARGET, 8, 14],
    &[1, 2, 3, 8],
    &[1, 2, 3, 15],
    &[1, 2, 3, 15, 6],
];

/// Each choice of refusals is tried so many times, with other spoiled arguments.
const TIMES: u64 = 300;

/// The numbers of the chain call and of the checks.
const CHAIN: usize = 1;
const CHECKS: [usize; 2] = [16, 17];

/// Runs the part. Chains with an unknown mode and in nearest mode come behind all others, and the checks behind these, so that the
/// other calls of a seed stay as they are.
pub fn run(run: &mut Run) {
    for call in 0..CHECKS[0] {
        every_choice(run, call, TRUNCATING, |chosen| !chosen.contains(&15));
    }
    every_choice(run, CHAIN, TRUNCATING, |chosen| chosen.contains(&15));
    every_choice(run, CHAIN, NEAREST, |chosen| !chosen.contains(&15));
    for call in CHECKS {
        every_choice(run, call, TRUNCATING, |_| true);
        every_choice(run, call, NEAREST, |chosen| !chosen.contains(&15));
    }
}

/// Every choice of a call's refusals that is wanted; the mode is this one where it is not to be unknown.
fn every_choice(run: &mut Run, call: usize, mode: u32, wanted: impl Fn(&[u32]) -> bool) {
    let refusals = OF_CALL[call];
    for choice in 0..1u32 << refusals.len() {
        let chosen: Vec<u32> = (0..refusals.len())
            .filter(|i| choice >> i & 1 == 1)
            .map(|i| refusals[i])
            .collect();
        if wanted(&chosen) {
            for _ in 0..TIMES.div_ceil(run.scale.every as u64) {
                once(run, call, mode, &chosen);
            }
        }
    }
}

/// One call with the chosen refusals' conditions holding.
fn once(run: &mut Run, call: usize, mode: u32, chosen: &[u32]) {
    let number = run.new_number();
    let mut arguments = accepted(&mut run.random, call, number);
    arguments.set_mode(mode);
    // A kind that is not taken first, so that a kind above 4 is not lost where both are chosen.
    for refusal in chosen
        .iter()
        .filter(|refusal| **refusal == 8)
        .chain(chosen.iter().filter(|refusal| **refusal != 8))
    {
        arguments.spoil(&mut run.random, call, *refusal);
    }
    arguments.lend(&mut run.random, call, chosen.contains(&3), chosen.contains(&TARGET));
    run.call(&arguments.call(call));
}
