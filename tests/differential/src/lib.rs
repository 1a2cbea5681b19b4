//! Slash arithmetic, words taken apart, breaths, the listing of a night, whole and in pieces, and its reading back,
//! and imported timings, written from the papers and the archive's header alone.

pub mod load;
pub mod night;
pub mod paper;
pub mod piece;
pub mod timings;
pub mod value;
