//! Nights listed in pieces, beside the listing of the whole.

use slash::{raw, Night, Piece, Stop, LINE_BYTES};

const RATE: &[u8] = b"rate\t1024\n";
const GOOD: &[u8] = b"0\t277\t642\n";
const LENT_BYTE: u8 = 0xa5;

/// Lists a recording in pieces: so many of its bytes are there at a time, and so many of text. What the text has
/// beyond a piece stays as it was, and so does all that is lent where the recording is refused.
fn listed(recording: &[u8], read: usize, room: usize) -> (Vec<u8>, Result<(), Stop>) {
    let (mut night, mut listing, mut at) = (Night::new(), vec![], 0);
    loop {
        let (before, mut text) = (night.clone(), vec![LENT_BYTE; room]);
        let end = recording.len().min(at + read);
        let piece = night.piece(&recording[at..end], end == recording.len(), &mut text);
        let length = piece.map_or(0, |piece| piece.length);
        assert!(text[length..].iter().all(|&byte| byte == LENT_BYTE));
        listing.extend_from_slice(&text[..length]);
        match piece {
            Err(stop) => {
                assert_eq!(night, before);
                return (listing, Err(stop));
            }
            Ok(Piece {
                used, ended: true, ..
            }) => {
                assert_eq!(at + used, recording.len());
                return (listing, Ok(()));
            }
            Ok(Piece { used, .. }) => {
                assert!(used > 0, "{read} bytes and {room} of text are enough");
                at += used;
            }
        }
    }
}

/// Asserts that the pieces of a recording in a row are this listing, and how they end.
fn assert_listed(recording: &[u8], listing: &[u8], end: Result<(), Stop>) {
    const LINE: usize = LINE_BYTES;
    for (read, room) in [
        (LINE, LINE),
        (LINE, 256),
        (256, LINE),
        (256, 256),
        (1 << 20, 1 << 20),
    ] {
        let (pieces, ended) = listed(recording, read, room);
        assert_eq!(ended, end, "{read} bytes, {room} of text");
        assert!(pieces == listing, "{read} bytes, {room} of text");
    }
    let mut written = vec![];
    let ended = slash::list_from(recording, &mut written).expect("memory is read and written");
    assert_eq!(ended, end);
    assert!(written == listing);
}

#[test]
fn pieces_in_a_row_are_the_listing() {
    let behind_rate = |breath: &[u8], count| [RATE, &breath.repeat(count)].concat();
    for recording in [
        vec![],
        behind_rate(GOOD, 0),
        // The widest line, short lines, and the most breaths.
        behind_rate(b"4294966653\t4294966930\t4294967295\n", 50),
        behind_rate(b"0\t0\t0\n", 500),
        behind_rate(GOOD, raw::MOST_BREATHS),
    ] {
        let listing = slash::night(&recording).expect("a listing");
        assert_listed(&recording, &listing, Ok(()));
    }
}

#[test]
fn the_sample_is_listed_as_the_examples_print_it() {
    let recording = include_bytes!("../../examples/sample.recording");
    let listing = include_bytes!("../../examples/pieces.stdout");
    assert_eq!(slash::night(recording).as_deref(), Ok(&listing[..]));
    assert_listed(recording, listing, Ok(()));
}

/// The lines of the breaths of good lines: their listing without the line `all`.
fn breaths_of(lines: &[u8]) -> Vec<u8> {
    let listing = slash::night(lines).expect("good lines");
    let mut lines: Vec<&[u8]> = listing.split_inclusive(|&byte| byte == b'\n').collect();
    lines.pop();
    lines.concat()
}

#[test]
fn a_line_is_refused_when_those_before_it_are_listed() {
    for count in [0, 1, 30] {
        let good = [RATE, &GOOD.repeat(count)].concat();
        let refused = |number, line: &[u8]| {
            let place = count as u64 + 2;
            let recording = [&good[..], line].concat();
            let stop = Stop { number, place };
            assert_eq!(slash::night(&recording), Err(stop));
            assert_listed(&recording, &breaths_of(&good), Err(stop));
        };
        refused(9, b"0\t277\t642");
        refused(9, &[&[b'0'; 33], GOOD].concat());
        refused(10, &[&[b'0'; 32], &b"\n"[..], GOOD].concat());
        refused(10, b"0\t277\n\n");
        refused(11, b"0\t277\t0642\nx");
    }
    for (number, first) in [(9, &b"rate\t1024"[..]), (19, b"rate\t0\n"), (19, GOOD)] {
        let stop = Stop { number, place: 1 };
        assert_listed(first, b"", Err(stop));
    }
    let most = [RATE, &GOOD.repeat(raw::MOST_BREATHS)].concat();
    let (number, place) = (8, 65_538);
    let more = [&most[..], b"0"].concat();
    assert_listed(&more, &breaths_of(&most), Err(Stop { number, place }));
}

#[test]
fn a_piece_waits_for_a_whole_line_and_for_room() {
    let mut night = Night::new();
    let mut text = [LENT_BYTE; LINE_BYTES];
    let piece = |used, length, ended| {
        Ok(Piece {
            used,
            length,
            ended,
        })
    };
    let waiting = piece(0, 0, false);
    assert_eq!(night.piece(b"", false, &mut text), waiting);
    assert_eq!(night.piece(b"rate\t1024", false, &mut text), waiting);
    let opened = night.piece(RATE, false, &mut text);
    assert_eq!(opened, piece(RATE.len(), 0, false));
    let behind_rate = night.clone();
    assert_eq!(night.piece(b"0\t277\t642", false, &mut text), waiting);
    assert_eq!(night.piece(GOOD, true, &mut []), waiting);
    assert_eq!((night, text), (behind_rate, [LENT_BYTE; LINE_BYTES]));
}

/// What the archive returns for these bytes as a night's last, and whether all that was lent is as it was.
fn lent(state: raw::NightState, bytes: &[u8]) -> (u64, bool) {
    let (mut night, mut text) = (state, [LENT_BYTE; LINE_BYTES]);
    let before = raw::Piece {
        used: 7,
        length: 8,
        ended: 9,
    };
    let mut piece = before;
    let (start, length) = (bytes.as_ptr(), bytes.len());
    let (room, room_length) = (text.as_mut_ptr(), text.len());
    // SAFETY: the pointers come from live values, with their lengths.
    let returned = unsafe {
        raw::slash_night_piece(&mut night, start, length, 1, room, room_length, &mut piece)
    };
    let is_untouched = text == [LENT_BYTE; LINE_BYTES];
    (returned, night == state && piece == before && is_untouched)
}

#[test]
fn a_night_that_no_recording_has_is_refused_first() {
    let good = raw::NightState {
        rate: 1024,
        breath: 2,
        inspiration: 277,
        whole: 642,
    };
    assert_eq!(lent(good, GOOD), (0, false));
    assert_eq!(lent(good, b"x\n"), (3 * 256 + 10, true));
    let refused = |change: &dyn Fn(&mut raw::NightState)| {
        let mut state = good;
        change(&mut state);
        assert_eq!(lent(state, b"x\n"), (255, true), "{state:?}");
    };
    for rate in [0, 4097, u64::MAX] {
        refused(&|night| night.rate = rate);
    }
    for breath in [0, 65_538, u64::MAX] {
        refused(&|night| night.breath = breath);
    }
    // More in than the whole; more than one breath can take.
    refused(&|night| night.inspiration = 643);
    refused(&|night| night.whole = u64::MAX);
    // No breath, and sums.
    refused(&|night| night.breath = 1);
}
