//! The same call, one record after the other, for the bench: this name is Rust's own with every feature.

use super::*;

pub unsafe extern "C" fn slash_timings(
    records: *const u8,
    records_length: usize,
    words: *mut u64,
    words_length: usize,
) -> u64 {
    let records = lent(records, records_length);
    let words = lent_mut(words, words_length);
    status(crate::timings::timings_by_record(records, words))
}
