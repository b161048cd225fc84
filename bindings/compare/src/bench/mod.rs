//! The benchmark: unit and source side by side in one process, turn by turn, the best of several rounds.

pub mod arguments;
pub mod chains;
pub mod checks;
pub mod irradiance;
pub mod lookups;
pub mod packing;
pub mod ranges;

use crate::unit::Unit;
use std::time::{Duration, Instant};

/// One that is timed: does its work once and says how long that took.
pub type Timed<'a> = Box<dyn FnMut() -> Duration + 'a>;

/// A row: what is done, how many things that is, and those who do it.
pub struct Row<'a> {
    pub name: String,
    pub count: u64,
    pub unit: Option<Timed<'a>>,
    pub source: Option<Timed<'a>>,
    pub floor: Option<Timed<'a>>,
}

/// The best time of each who does a row, in nanoseconds a thing.
pub struct Best {
    pub name: String,
    pub unit: Option<f64>,
    pub source: Option<f64>,
    pub floor: Option<f64>,
}

impl Row<'_> {
    /// Lets each do the work in turn, so many rounds long.
    pub fn best(mut self, rounds: usize) -> Best {
        let mut least = [None::<Duration>; 3];
        for _ in 0..rounds {
            let timed = [&mut self.unit, &mut self.source, &mut self.floor];
            for (timed, least) in timed.into_iter().zip(&mut least) {
                let Some(timed) = timed else {
                    continue;
                };
                let taken = timed();
                *least = Some(least.map_or(taken, |least| least.min(taken)));
            }
        }
        let each = least.map(|least| least.map(|taken| taken.as_secs_f64() * 1e9 / self.count as f64));
        Best {
            name: self.name,
            unit: each[0],
            source: each[1],
            floor: each[2],
        }
    }
}

/// The time of some work.
pub fn time<T>(work: impl FnOnce() -> T) -> Duration {
    let start = Instant::now();
    std::hint::black_box(work());
    start.elapsed()
}

/// A number of a table.
fn number(value: Option<f64>) -> String {
    value.map_or("-".to_string(), |value| format!("{value:.2}"))
}

/// A ratio of a table.
fn ratio(a: Option<f64>, b: Option<f64>) -> String {
    number(a.zip(b).map(|(a, b)| a / b))
}

/// The rows as a table of times and of ratios to the source and to the floor.
pub fn table(title: &str, thing: &str, unit: &str, rows: &[Best]) -> String {
    let mut text = format!("## {title}\n\n");
    text += &format!("| | {unit} / source | {unit} / memcpy | {unit} | source | memcpy |\n");
    text += "|---|--:|--:|--:|--:|--:|\n";
    for row in rows {
        text += &format!(
            "| {} | {} | {} | {} | {} | {} |\n",
            row.name,
            ratio(row.unit, row.source),
            ratio(row.unit, row.floor),
            number(row.unit),
            number(row.source),
            number(row.floor)
        );
    }
    text + &format!("\nTimes in nanoseconds {thing}.\n")
}

/// Who is held against the source: the unit that was linked, or the plain reading where none was.
#[cfg(feature = "unit")]
pub fn unit() -> (&'static str, impl Unit) {
    ("unit", crate::boundary::Boundary)
}

/// Who is held against the source: the unit that was linked, or the plain reading where none was.
#[cfg(not(feature = "unit"))]
pub fn unit() -> (&'static str, impl Unit) {
    (
        "plain reading",
        crate::reading::Reading::<crate::plain::Document01>::NEW,
    )
}
