//! The comparison itself is tried: each deliberate slip is seen by it on the quick cases.

use swathecold_compare::cases::{run_all, QUICK};
use swathecold_compare::comparison::Comparison;
use swathecold_compare::plain::Document01;
use swathecold_compare::reading::Reading;
use swathecold_compare::slips;

#[test]
fn every_slip_is_seen() {
    let mut comparison = Comparison::new(Box::new(Reading::<Document01>::NEW));
    for (name, unit) in slips::all() {
        comparison.hold(name, unit, false);
    }
    comparison.until_seen = true;
    run_all(&mut comparison, QUICK, 1, |_| ());
    for slip in &comparison.others {
        let calls: u64 = slip.tallies.iter().map(|tally| tally.calls).sum();
        let seen = slip.tallies.iter().find_map(|tally| tally.smallest.as_ref());
        let by = seen.map_or("NOT SEEN", |shown| shown.text.as_str());
        println!("{} after {calls} calls: {by}", slip.name);
    }
    let unseen: Vec<&str> = comparison
        .others
        .iter()
        .filter(|slip| slip.differences() == 0)
        .map(|slip| slip.name.as_str())
        .collect();
    assert!(unseen.is_empty(), "slips that were not seen: {unseen:?}");
}

/// The reading held against itself shows nothing, so what is seen above is the slip.
#[test]
fn the_reading_agrees_with_itself() {
    let mut comparison = Comparison::new(Box::new(Reading::<Document01>::NEW));
    comparison.hold("itself", Box::new(Reading::<Document01>::NEW), false);
    let scale = swathecold_compare::cases::Scale {
        lookups: 20_000,
        on_one: 50,
        texels: 50_000,
        every: 7,
        largest: false,
    };
    run_all(&mut comparison, scale, 2, |_| ());
    assert_eq!(comparison.others[0].differences(), 0);
}
