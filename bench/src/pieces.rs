//! A night listed in pieces, as one does who has no room for a whole listing.

use crate::contenders::{listed, NIGHTS, PIECES};
use crate::{in_turn, line_apart, median, timed, BREATHS, ROUNDS};
use std::hint::black_box;

/// The bytes of a piece of the recording and of the text: a small recorder's, and those of the program `night`.
const SIZES: [usize; 2] = [256, 16 * 1024];

/// The smallest size, in which lines are compared too.
const LINE_BYTES: usize = 33;

pub fn section(recording: &[u8]) -> String {
    for bytes in [
        0,
        1,
        recording.len() / 2,
        recording.len() - 1,
        recording.len(),
    ] {
        assert_listed_alike(&recording[..bytes]);
    }
    let (pieces, whole) = times(recording);
    let mut section = format!(
        "## A night in pieces\n\n\
         That recording listed by calls of `slash_night_piece`, each lent so many bytes of the recording and as \
         many of text: nanoseconds a breath, then how many times as long as the archive hand-written Rust takes. \
         The archive's `slash_night` took {:.1} ns a breath in the same rounds; it reads the recording through \
         first, which pieces don't.\n\n\
         | | Archive, ns | Hand-written Rust |\n|---|--:|--:|\n",
        median(&whole)
    );
    for (size, [archive, hand]) in SIZES.iter().zip(&pieces) {
        section += &line_apart(&format!("pieces of {size} bytes"), archive, hand);
    }
    section + "\n"
}

/// The nanoseconds a breath by size and function, round by round, and those of the archive's `slash_night`.
fn times(recording: &[u8]) -> ([[Vec<f64>; PIECES.len()]; SIZES.len()], Vec<f64>) {
    let mut listing = vec![0; slash::raw::LISTING_BYTES];
    let (mut times, mut whole) = (SIZES.map(|_| PIECES.map(|_| Vec::new())), Vec::new());
    let in_pieces = SIZES.len() * PIECES.len();
    for round in 0..ROUNDS {
        for at in in_turn(in_pieces + 1, round) {
            let (size, function) = (at / PIECES.len(), at % PIECES.len());
            let (spent, status) = if at == in_pieces {
                timed(|| listed(NIGHTS[0], recording, &mut listing).0)
            } else {
                let mut take = |text: &[u8]| {
                    black_box(text);
                };
                timed(|| PIECES[function](recording, SIZES[size], &mut take))
            };
            assert_eq!(status, 0);
            let taken = times
                .get_mut(size)
                .map_or(&mut whole, |times| &mut times[function]);
            taken.push(spent / BREATHS as f64);
        }
    }
    (times, whole)
}

/// Holds the functions to each other and to the archive's `slash_night`: what the last call returns, and all texts
/// in a row; those of a refused recording to each other alone.
fn assert_listed_alike(recording: &[u8]) {
    let mut listing = vec![0; slash::raw::LISTING_BYTES];
    let (stop, length) = listed(NIGHTS[0], recording, &mut listing);
    for size in SIZES.into_iter().chain([LINE_BYTES]) {
        let [archive, hand] = PIECES.map(|pieces| {
            let mut texts = Vec::<u8>::new();
            let status = pieces(recording, size, &mut |text| texts.extend(text));
            (status, texts)
        });
        assert!(
            archive == hand,
            "{} bytes are listed otherwise",
            recording.len()
        );
        assert_eq!(archive.0, stop);
        assert!(stop != 0 || archive.1 == listing[..length]);
    }
}
