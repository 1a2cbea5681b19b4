//! Records of timings, rounded: the archive beside two hand-written forms.

use crate::contenders::{rounded, TIMINGS};
use crate::inputs::{record, Source};
use crate::{in_turn, median, ratio, timed, CALLS, ROUNDS};
use std::fmt::Write as _;

/// What a place of a lent vector holds where results are compared.
const LENT: u64 = 0x7e11_7a1e_7e11_7a1e;

/// The longest vectors that are compared in every length.
const SMALL: usize = 100;

/// Its inputs are drawn here, behind those of all else, so that every other row has those that it had.
pub fn section(source: &mut Source) -> String {
    let mut section = format!(
        "\n## Timings\n\n\
         Vectors of {CALLS} records by one call of `slash_timings`, nanoseconds a record, then how many times \
         as long as the archive each of the others takes. Each reads all records through before it stores \
         anything, as a refused vector must leave the lent words as they were. Record by record: as the archive \
         goes, by divisions in 32 bits, with both parts of a convergent in one number. In lanes: another \
         algorithm, which goes by floats through 64 records at once (`bench/hand/src/timings.rs` has both), \
         shown so that nobody takes the other column for the fastest there is; fewer than 8 records go one by \
         one there too.\n\n\
         | | Archive, ns | Hand-written Rust, record by record | Hand-written Rust in lanes |\n|---|--:|--:|--:|\n",
    );
    let breaths: Vec<u8> = (0..CALLS).flat_map(|_| source.breath_record()).collect();
    let mixed: Vec<u8> = (0..CALLS).flat_map(|_| source.any_record()).collect();
    for (name, records) in [
        ("timings of breaths like a sleeper's", breaths),
        ("timings and ratios of any size", mixed),
    ] {
        assert_rounded_alike(&records);
        section += &row(name, &records);
    }
    section
}

/// Those that take part are three, for the reason that the table of calls has.
fn row(name: &str, records: &[u8]) -> String {
    let mut words = vec![0; CALLS];
    let mut times = TIMINGS.map(|_| Vec::new());
    for round in 0..ROUNDS {
        for at in in_turn(TIMINGS.len(), round) {
            words.fill(0);
            let (spent, status) = timed(|| rounded(TIMINGS[at], records, &mut words));
            assert_eq!(status, 0);
            times[at].push(spent / CALLS as f64);
        }
    }
    let [archive, lanes, by_record] = &times;
    let mut row = String::new();
    writeln!(
        row,
        "| {name} | {:.1} | {:.2} | {:.2} |",
        median(archive),
        ratio(archive, by_record),
        ratio(archive, lanes)
    )
    .expect("a row");
    row
}

/// Holds the forms to each other: on all records, on their first ones in every small number with one place
/// more and less and bytes taken off, and on such with one record that is refused.
fn assert_rounded_alike(records: &[u8]) {
    assert_alike(records, CALLS);
    let one = record([0; 3]).len();
    for count in 0..=SMALL {
        let few = &records[..count * one];
        for places in count.saturating_sub(1)..=count + 1 {
            assert_alike(few, places);
        }
        assert_alike(&few[..few.len().saturating_sub(1)], count);
        for place in 0..count {
            for bad in [record([0, 0, 0]), record([1, 0, 0]), record([2, 0, 0])] {
                let mut changed = few.to_vec();
                changed[place * one..][..one].copy_from_slice(&bad);
                assert_alike(&changed, count);
            }
        }
    }
}

/// What each returns, and all words that it is lent.
fn assert_alike(records: &[u8], places: usize) {
    let [archive, others @ ..] = TIMINGS.map(|timings| {
        let mut words = vec![LENT; places];
        (rounded(timings, records, &mut words), words)
    });
    assert!(
        others.iter().all(|other| *other == archive),
        "{} bytes are rounded otherwise",
        records.len()
    );
}
