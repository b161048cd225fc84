//! `differential [small|quick|large] [SEED]`: the unit and the source held against the plain reading of document 01.
//! Ends with status 1 where a difference was seen that is not a listed one, with 2 where it was asked wrongly.

use std::process::ExitCode;
use std::time::Instant;
use swathecold_compare::cases::{run_all, LARGE, QUICK, SMALL};
use swathecold_compare::comparison::Comparison;
use swathecold_compare::plain::Document01;
use swathecold_compare::reading::Reading;
use swathecold_compare::report::report;

/// The seed where none is given.
const SEED: u64 = 1;

fn main() -> ExitCode {
    let words: Vec<String> = std::env::args().skip(1).collect();
    let scale = match words.first().map(String::as_str) {
        None | Some("quick") => QUICK,
        Some("small") => SMALL,
        Some("large") => LARGE,
        Some(_) => return usage(),
    };
    let seed = match words.get(1).map(|word| word.parse()) {
        None => SEED,
        Some(Ok(seed)) => seed,
        Some(Err(_)) => return usage(),
    };
    let mut comparison = Comparison::new(Box::new(Reading::<Document01>::NEW));
    hold_against(&mut comparison);
    if comparison.others.is_empty() {
        eprintln!("nothing to compare: neither the unit nor the source is there");
        return ExitCode::from(2);
    }
    let start = Instant::now();
    run_all(&mut comparison, scale, seed, |part| {
        eprintln!("{:7.1} s  {part}", start.elapsed().as_secs_f64())
    });
    println!("# Held against the plain reading of document 01, seed {seed}\n");
    println!("{}", report(&comparison));
    println!("{:.1} s", start.elapsed().as_secs_f64());
    let differences: u64 = comparison.others.iter().map(|other| other.differences()).sum();
    ExitCode::from((differences > 0) as u8)
}

/// Those that there are: the unit where it was linked, the source where it was given.
fn hold_against(comparison: &mut Comparison) {
    #[cfg(feature = "unit")]
    comparison.hold("the unit", Box::new(swathecold_compare::boundary::Boundary), false);
    #[cfg(not(feature = "unit"))]
    println!("unit comparison skipped: build with the feature `unit`");
    #[cfg(source)]
    comparison.hold(
        "the source",
        Box::new(swathecold_compare::source::Source::default()),
        true,
    );
    #[cfg(not(source))]
    println!("source comparison skipped: set SWRASTER_SRC");
    let _ = comparison;
}

/// Says how it is asked.
fn usage() -> ExitCode {
    eprintln!("usage: differential [small|quick|large] [SEED]");
    ExitCode::from(2)
}
