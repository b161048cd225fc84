//! `answers make FILE [SEED]` writes the list of answers; `answers check FILE` replays one on the unit that was linked,
//! or on the plain reading where none was. ANSWERS.md describes the list.

use std::fs;
use std::process::ExitCode;
use swathecold_compare::answers::{agrees, from_bytes, sample, to_bytes};
use swathecold_compare::bench::unit;

/// The seed where none is given.
const SEED: u64 = 1;

fn main() -> ExitCode {
    let words: Vec<String> = std::env::args().skip(1).collect();
    let words: Vec<&str> = words.iter().map(String::as_str).collect();
    let done = match words[..] {
        ["make", file] => make(file, SEED),
        ["make", file, seed] => seed
            .parse()
            .map_err(|_| "a seed is a number".to_string())
            .and_then(|seed| make(file, seed)),
        ["check", file] => check(file),
        _ => Err("usage: answers make FILE [SEED] | answers check FILE".to_string()),
    };
    match done {
        Ok(said) => {
            println!("{said}");
            ExitCode::SUCCESS
        }
        Err(wrong) => {
            eprintln!("{wrong}");
            ExitCode::FAILURE
        }
    }
}

/// Writes the list of a seed.
fn make(file: &str, seed: u64) -> Result<String, String> {
    let records = sample(seed);
    let bytes = to_bytes(&records);
    fs::write(file, &bytes).map_err(|error| format!("{file}: {error}"))?;
    Ok(format!("{} answers, {} bytes", records.len(), bytes.len()))
}

/// Replays a list.
fn check(file: &str) -> Result<String, String> {
    let records = from_bytes(&fs::read(file).map_err(|error| format!("{file}: {error}"))?)?;
    let (name, unit) = unit();
    let wrong: Vec<usize> = (0..records.len()).filter(|i| !agrees(&unit, &records[*i])).collect();
    match wrong.first() {
        None => Ok(format!("{name}: {} of {} agree", records.len(), records.len())),
        Some(first) => Err(format!(
            "{name}: {} of {} do not agree, the first is record {first}: {:08X?}",
            wrong.len(),
            records.len(),
            records[*first]
        )),
    }
}
