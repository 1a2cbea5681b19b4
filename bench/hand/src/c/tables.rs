//! The same calls, twisting and counting with tables, for the bench: these names are Rust's own with every feature.

pub use super::*;

pub unsafe extern "C" fn slash_quotient_count(
    kind: u64,
    k: u64,
    operand: u64,
    count: *mut u64,
) -> u64 {
    store(crate::tables::quotient_count(kind, k, operand), count)
}

pub unsafe extern "C" fn slash_twist(kind: u64, k: u64, word: u64, twisted: *mut u64) -> u64 {
    store(crate::tables::twist(kind, k, word), twisted)
}

pub unsafe extern "C" fn slash_untwist(kind: u64, k: u64, twisted: u64, word: *mut u64) -> u64 {
    store(crate::tables::untwist(kind, k, twisted), word)
}

pub unsafe extern "C" fn slash_twist_each(
    kind: u64,
    k: u64,
    operand: *const u64,
    operand_length: usize,
    out: *mut u64,
    out_length: usize,
) -> u64 {
    let operand = lent(operand, operand_length);
    let out = lent_mut(out, out_length);
    status(crate::tables::twist_each(kind, k, operand, out))
}

pub unsafe extern "C" fn slash_untwist_each(
    kind: u64,
    k: u64,
    operand: *const u64,
    operand_length: usize,
    out: *mut u64,
    out_length: usize,
) -> u64 {
    let operand = lent(operand, operand_length);
    let out = lent_mut(out, out_length);
    status(crate::tables::untwist_each(kind, k, operand, out))
}
