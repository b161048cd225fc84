//! The list of answers: it says enough to make each call again, and what it says is what the plain reading answers.

use swathecold_compare::answers::{agrees, from_bytes, sample, to_bytes, Record, ANSWER, ARGUMENTS, LONGEST};
use swathecold_compare::call::NAMES;
use swathecold_compare::plain::Document01;
use swathecold_compare::reading::Reading;
use swathecold_compare::slips;

#[test]
fn the_list_can_be_replayed() {
    let records = sample(1);
    assert_eq!(from_bytes(&to_bytes(&records)).unwrap(), records);
    assert_eq!(records, sample(1), "the same seed makes the same list");
    assert!(records.iter().all(|record| agrees(&Reading::<Document01>::NEW, record)));
    assert!(records.iter().all(|record| record[5] as usize <= LONGEST));
    let mut with_ranges = records.iter().filter(|record| matches!(record[0], 13 | 14));
    assert!(with_ranges.all(|record| record[ARGUMENTS] as usize <= LONGEST));
    for call in 0..NAMES.len() {
        let of_call = |record: &&Record| record[0] as usize == call;
        let accepted = records
            .iter()
            .filter(of_call)
            .filter(|record| record[ANSWER] == 0)
            .count();
        let refused = records
            .iter()
            .filter(of_call)
            .filter(|record| record[ANSWER] != 0)
            .count();
        println!("call {call}: {accepted} accepted, {refused} refused");
        assert!(accepted >= 40 && refused >= 3);
    }
}

/// The list sees every slip too.
#[test]
fn the_list_sees_every_slip() {
    let records = sample(1);
    for (name, unit) in slips::all() {
        let seen = records.iter().filter(|record| !agrees(&*unit, record)).count();
        println!("{name}: {seen} records");
        assert!(seen > 0, "{name} is not seen");
    }
}

#[test]
fn a_list_that_is_none_is_refused() {
    let bytes = to_bytes(&sample(1));
    assert!(from_bytes(&bytes[..bytes.len() - 1]).is_err());
    assert!(from_bytes(&bytes[1..]).is_err());
    assert!(from_bytes(&[]).is_err());
    let mut retired = sample(1);
    retired[0][ANSWER] = 9;
    assert!(from_bytes(&to_bytes(&retired)).is_err());
}
