//! The counts of a comparison as a table, and each difference's smallest case.

use crate::call::{NAMES, NUMBERS};
use crate::comparison::{Comparison, Other, Tally, KINDS};
use std::fmt::Write;

/// The names of the kinds by their codes, and of what has none.
const KIND_NAMES: [&str; KINDS] = ["SRGB", "Normal", "MetallicRoughness", "Cubemap", "Linear", "-"];

/// The report of all that were held against the reading.
pub fn report(comparison: &Comparison) -> String {
    let others = comparison.others.iter().map(of_one).collect::<Vec<_>>().join("\n");
    format!("{}\n{others}", refusals_given(comparison))
}

/// How often the reading gave each refusal number.
fn refusals_given(comparison: &Comparison) -> String {
    let numbers: Vec<String> = NUMBERS[1..].iter().map(u32::to_string).collect();
    let mut text = "## What the reading answered\n\n".to_string();
    let _ = writeln!(text, "| call | accepted | {} |", numbers.join(" | "));
    let _ = writeln!(text, "|---|{}", "--:|".repeat(NUMBERS.len()));
    for (call, given) in comparison.given.iter().enumerate() {
        let counts = NUMBERS.map(|number| given[number as usize].to_string());
        let _ = writeln!(text, "| {} | {} |", NAMES[call], counts.join(" | "));
    }
    text + &verdicts_given(comparison)
}

/// How many of the accepted checks found that their chain or level follows.
fn verdicts_given(comparison: &Comparison) -> String {
    let found = comparison.verdicts.iter().enumerate();
    found
        .filter(|(_, [follow, do_not])| follow + do_not > 0)
        .map(|(call, [follow, do_not])| format!("\n{}: {follow} follow, {do_not} do not\n", NAMES[call]))
        .collect()
}

/// The report of one.
fn of_one(other: &Other) -> String {
    let mut text = format!("## {}\n\n", other.name);
    text += "| call | kind | calls | refused | texels or bytes made | left out | of these differ | differences |\n";
    text += "|---|---|--:|--:|--:|--:|--:|--:|\n";
    for (call, kind, tally) in tallies(other) {
        let _ = writeln!(
            text,
            "| {} | {} | {} | {} | {} | {} | {} | {} |",
            NAMES[call],
            KIND_NAMES[kind],
            tally.calls,
            tally.refused,
            tally.made,
            tally.left_out,
            tally.listed,
            tally.differences
        );
    }
    text += &not_asked(other);
    text += &smallest(other, "listed difference", |tally| {
        tally.smallest_listed.as_ref().map(|s| &s.text)
    });
    text += &smallest(other, "DIFFERENCE", |tally| tally.smallest.as_ref().map(|s| &s.text));
    let calls: u64 = other.tallies.iter().map(|tally| tally.calls).sum();
    let _ = writeln!(
        text,
        "\n{}: {calls} calls, {} differences",
        other.name,
        other.differences()
    );
    text
}

/// The accepted calls that were not asked of one, by their number: the source has not all of them.
fn not_asked(other: &Other) -> String {
    let of = |call: usize| (0..KINDS).map(|kind| other.tally(call, kind).not_asked).sum::<u64>();
    let counts: Vec<String> = (0..NAMES.len())
        .filter(|call| of(*call) > 0)
        .map(|call| format!("{} {}", of(call), NAMES[call]))
        .collect();
    if counts.is_empty() {
        return String::new();
    }
    format!("\nAccepted calls not asked of it: {}\n", counts.join(", "))
}

/// The tallies in which something was counted.
fn tallies(other: &Other) -> impl Iterator<Item = (usize, usize, &Tally)> {
    let all = (0..NAMES.len()).flat_map(|call| (0..KINDS).map(move |kind| (call, kind)));
    all.map(|(call, kind)| (call, kind, other.tally(call, kind)))
        .filter(|(_, _, tally)| tally.calls > 0)
}

/// The smallest cases, one for each call and kind that has one.
fn smallest<'a>(other: &'a Other, what: &str, of: impl Fn(&'a Tally) -> Option<&'a String>) -> String {
    let shown = tallies(other).filter_map(|(_, kind, tally)| of(tally).map(|text| (kind, text)));
    shown
        .map(|(kind, text)| format!("\n{what}, {}, smallest case:\n  {text}\n", KIND_NAMES[kind]))
        .collect()
}
