//! The same calls, with halving where a breath's ratio is held, for the bench: these names are Rust's own with every
//! feature.

pub use super::*;

pub unsafe extern "C" fn slash_breath(
    rate: u64,
    onset: u32,
    peak: u32,
    next: u32,
    word: *mut u64,
) -> u64 {
    store(crate::breath::breath::<true>(rate, onset, peak, next), word)
}

pub unsafe extern "C" fn slash_night(
    recording: *const u8,
    recording_length: usize,
    listing: *mut u8,
    length: *mut u64,
) -> u64 {
    let recording = lent(recording, recording_length);
    let listing = lent_mut(listing, crate::night::LISTING_BYTES);
    store(crate::night::night::<true>(recording, listing), length)
}
