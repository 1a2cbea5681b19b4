//! Nights listed in pieces: single calls at every state and with every buffer, and whole nights by a caller's calls.

use crate::calls::{shown, status, Harness, GUARDS, LENT, LENT_BYTE};
use crate::inputs::{Source, STRANGE};
use crate::nights::{longest, MOST_TICKS, PAPERS};
use crate::texts;
use differential::night::{self, MOST_BREATHS};
use differential::piece::{self, State};
use slash::raw;

/// The most bytes of a line of a recording and of a listing.
const LINE_BYTES: usize = 33;

/// A caller gives up behind so many calls that came to nothing though its buffers held a line.
const MOST_IDLE: usize = 8;

/// Rates and numbers of breaths, good at the ends of what there is, others beyond them; some are good ones again when
/// bits are dropped.
const RATES: [u64; 7] = [
    0,
    1,
    1024,
    MOST_TICKS,
    MOST_TICKS + 1,
    1 << 32 | 1,
    u64::MAX,
];
const LAST: u64 = MOST_BREATHS as u64;
const BREATHS: [u64; 9] = [0, 1, 2, 3, LAST, LAST + 1, LAST + 2, 1 << 32 | 1, u64::MAX];

/// What lent structs hold before a call.
const LENT_STATE: raw::NightState = raw::NightState {
    rate: LENT,
    breath: LENT ^ 1,
    inspiration: LENT ^ 2,
    whole: LENT ^ 3,
};
const LENT_PIECE: raw::Piece = raw::Piece {
    used: LENT,
    length: LENT ^ 1,
    ended: LENT ^ 2,
};

/// A state as the archive takes it.
fn lent(state: State) -> raw::NightState {
    raw::NightState {
        rate: state.rate,
        breath: state.breath,
        inspiration: state.inspiration,
        whole: state.whole,
    }
}

/// A state as the implementation from the papers takes it.
fn state_of(state: raw::NightState) -> State {
    State {
        rate: state.rate,
        breath: state.breath,
        inspiration: state.inspiration,
        whole: state.whole,
    }
}

/// All that a call returns and leaves behind its pointers: the state and the piece between two others each, the text
/// with guards around it.
#[derive(Debug, PartialEq)]
struct Left {
    returned: u64,
    states: [raw::NightState; 3],
    pieces: [raw::Piece; 3],
    text: Vec<u8>,
}

impl Left {
    /// What is there before a call.
    fn before(state: State, room: usize) -> Left {
        Left {
            returned: 0,
            states: [LENT_STATE, lent(state), LENT_STATE],
            pieces: [LENT_PIECE; 3],
            text: vec![LENT_BYTE; GUARDS + room + GUARDS],
        }
    }

    /// What the papers leave.
    fn by_papers(state: State, bytes: &[u8], last: u64, room: usize) -> Left {
        let mut left = Left::before(state, room);
        match piece::piece(state, bytes, last != 0, room) {
            Ok(piece) => {
                left.states[1] = lent(piece.state);
                left.pieces[1] = raw::Piece {
                    used: piece.used as u64,
                    length: piece.text.len() as u64,
                    ended: piece.ended.into(),
                };
                left.text[GUARDS..][..piece.text.len()].copy_from_slice(&piece.text);
            }
            Err(stop) => left.returned = status(stop),
        }
        left
    }

    /// The text that the piece says it stored.
    fn stored(&self) -> &[u8] {
        let length = self.pieces[1].length as usize;
        self.text[GUARDS..].get(..length).unwrap_or_default()
    }
}

/// A caller's buffers: bytes of the recording and of text; and whether a caller who holds the recording's last bytes
/// knows it.
#[derive(Clone, Copy)]
struct Buffers {
    bytes: usize,
    text: usize,
    knows_end: bool,
}

impl Buffers {
    fn of(bytes: usize) -> Buffers {
        Buffers {
            bytes,
            text: bytes,
            knows_end: true,
        }
    }
}

impl Harness {
    /// Holds one call to the papers, and gives what it left.
    fn piece(&mut self, state: State, bytes: &[u8], last: u64, room: usize) -> Left {
        let mut left = Left::before(state, room);
        let (start, count) = (self.start(bytes), bytes.len());
        let text = self.start_mut(&mut left.text[GUARDS..GUARDS + room]);
        let (night, piece) = (&mut left.states[1], &mut left.pieces[1]);
        left.returned =
            unsafe { raw::slash_night_piece(night, start, count, last, text, room, piece) };
        let papers = Left::by_papers(state, bytes, last, room);
        self.hold(
            "slash_night_piece",
            (state, shown(bytes), last, room),
            &left,
            &papers,
        );
        left
    }

    /// Lists a night as a caller with buffers does, and holds the texts in a row and the stop to those of the
    /// archive's own listing of the whole; of a refused recording the texts are what the papers list before the bad
    /// line.
    fn night_in_pieces(&mut self, recording: &[u8], mut buffers: impl FnMut() -> Buffers) {
        let (returned, texts) = self.by_calls(recording, &mut buffers);
        let (stop, mut listing) = self.listed(recording);
        if stop != 0 {
            (listing, _) = night::listed(recording);
        }
        let same = texts == listing;
        self.hold(
            "slash_night_piece",
            shown(recording),
            (returned, same, shown(&texts)),
            (stop, true, shown(&listing)),
        );
    }

    /// What the last call returned, and all texts in a row.
    fn by_calls(
        &mut self,
        recording: &[u8],
        buffers: &mut impl FnMut() -> Buffers,
    ) -> (u64, Vec<u8>) {
        let (mut state, mut rest, mut texts) = (State::default(), recording, Vec::new());
        let mut idle = 0;
        while idle < MOST_IDLE {
            let Buffers {
                bytes,
                text,
                knows_end,
            } = buffers();
            let given = &rest[..rest.len().min(bytes)];
            let last = knows_end && given.len() == rest.len();
            let left = self.piece(state, given, last.into(), text);
            let piece = left.pieces[1];
            if left.returned != 0 {
                return (left.returned, texts);
            }
            texts.extend(left.stored());
            if piece.ended != 0 {
                return (0, texts);
            }
            // Such buffers hold a line, or the recording's end.
            let are_enough = bytes >= LINE_BYTES && text >= LINE_BYTES && knows_end;
            idle = match piece.used {
                0 => idle + usize::from(are_enough),
                _ => 0,
            };
            state = state_of(left.states[1]);
            rest = rest.get(piece.used as usize..).unwrap_or_default();
        }
        (LENT, texts)
    }
}

// The exhaustive part.

pub fn every_piece(harness: &mut Harness, source: &mut Source) {
    every_window(harness);
    every_short_text(harness);
    every_long_line(harness);
    every_state(harness);
    for recording in texts::changed(PAPERS.as_bytes()) {
        harness.night_in_pieces(&recording, || Buffers::of(LINE_BYTES));
    }
    long_recordings(harness, source);
}

/// The papers' recording from each of its lines on: so many of its bytes, the last or not, and so much text.
fn every_window(harness: &mut Harness) {
    let (mut state, mut rest) = (State::default(), PAPERS.as_bytes());
    while !rest.is_empty() {
        for (count, room) in
            (0..=rest.len()).flat_map(|count| (0..110).map(move |room| (count, room)))
        {
            for last in [0, 1] {
                harness.piece(state, &rest[..count], last, room);
            }
        }
        let line_feed = rest.iter().position(|&byte| byte == b'\n');
        let (line, behind) = rest.split_at(line_feed.expect("a line") + 1);
        let next = piece::piece(state, line, false, LINE_BYTES);
        (state, rest) = (next.expect("a good line").state, behind);
    }
    for last in [0, 1, 2, 256, 1 << 32, 1 << 63, u64::MAX] {
        harness.piece(state, b"", last, LINE_BYTES);
        harness.piece(state, b"0\t1\t2", last, LINE_BYTES);
        harness.piece(State::default(), b"rate\t1", last, LINE_BYTES);
    }
}

/// States at the ends of what there is: nothing read, no breath, one, the last, and behind the last.
fn states() -> [State; 6] {
    let at = |rate, breath, inspiration, whole| State {
        rate,
        breath,
        inspiration,
        whole,
    };
    let ticks = u64::from(longest(MOST_TICKS));
    [
        State::default(),
        at(1, 1, 0, 0),
        at(1, 2, 60, 120),
        at(MOST_TICKS, LAST, 0, ticks * (LAST - 1)),
        at(MOST_TICKS, LAST + 1, 0, 0),
        at(MOST_TICKS, LAST + 1, ticks * LAST, ticks * LAST),
    ]
}

/// Every text of a few bytes that are digits 0 and 1, tabs and line feeds, at each of these states.
fn every_short_text(harness: &mut Harness) {
    for text in texts::short(b"01\t\n", 5) {
        let behind_rate = [b"rate\t1\n", &text[..]].concat();
        for (last, room) in [0, 1]
            .into_iter()
            .flat_map(|last| [0, 16, 32, 33, 49, 66].map(|room| (last, room)))
        {
            for state in states() {
                harness.piece(state, &text, last, room);
            }
            harness.piece(State::default(), &behind_rate, last, room);
        }
    }
}

/// No bytes, no text, or neither, at each of these states.
pub fn every_empty_piece(harness: &mut Harness) {
    for (state, last) in states()
        .into_iter()
        .flat_map(|state| [(state, 0), (state, 1)])
    {
        for room in [0, LINE_BYTES] {
            harness.piece(state, b"", last, room);
        }
        for bytes in ["0\t1\t2\n", "rate\t1\n", "0"] {
            harness.piece(state, bytes.as_bytes(), last, 0);
        }
    }
}

/// Lines of about the most bytes, with and without a line feed, and with a line behind it.
fn every_long_line(harness: &mut Harness) {
    for (start, length) in ["", "0\t1\t", "rate\t"]
        .iter()
        .flat_map(|start| (28..40).map(move |length| (start, length)))
    {
        let line = format!("{start:1<length$}");
        for text in ["", "\n", "\n0\t1\t2\n"].map(|end| line.clone() + end) {
            for (state, last) in states()
                .into_iter()
                .flat_map(|state| [(state, 0), (state, 1)])
            {
                for room in [0, LINE_BYTES - 1, LINE_BYTES, 3 * LINE_BYTES] {
                    harness.piece(state, text.as_bytes(), last, room);
                }
            }
        }
    }
}

/// States about the ends of what a recording has, and strange ones, before a breath and at the end.
fn every_state(harness: &mut Harness) {
    let numbers = RATES
        .into_iter()
        .flat_map(|rate| BREATHS.map(|breath| (rate, breath)));
    for state in numbers.flat_map(|(rate, breath)| states_of(rate, breath)) {
        harness.piece(state, b"", 1, LINE_BYTES);
        harness.piece(state, b"0\t1\t2\n", 0, LINE_BYTES);
    }
}

/// Sums about the ends of what so many breaths have at a rate, and strange ones.
fn states_of(rate: u64, breath: u64) -> Vec<State> {
    let largest = u64::from(longest(rate)).wrapping_mul(breath.wrapping_sub(1));
    let wholes = [&around(largest)[..], &around(0), &[1 << 32, 1 << 63]].concat();
    let sums = wholes.into_iter().flat_map(|whole| {
        let parts = [&around(whole)[..], &around(0), &[whole / 2]].concat();
        parts
            .into_iter()
            .map(move |inspiration| (inspiration, whole))
    });
    sums.map(|(inspiration, whole)| State {
        rate,
        breath,
        inspiration,
        whole,
    })
    .collect()
}

fn around(number: u64) -> [u64; 3] {
    [number.wrapping_sub(1), number, number.wrapping_add(1)]
}

/// Recordings of about as many breaths as are allowed, good and damaged, in pieces of several sizes.
fn long_recordings(harness: &mut Harness, source: &mut Source) {
    for (breaths, bytes) in [
        (65535, 256),
        (65536, LINE_BYTES),
        (65536, 16384),
        (65537, 256),
    ] {
        for damages in 0..2 {
            let mut recording = source.recording(breaths);
            (0..damages).for_each(|_| source.damage(&mut recording));
            harness.night_in_pieces(&recording, || Buffers::of(bytes));
        }
    }
}

// The random part.

/// A night by calls with buffers of random sizes; or one call at a random state.
pub fn random_piece(harness: &mut Harness, source: &mut Source) {
    let breaths = source.below(9) as usize;
    let mut recording = source.recording(breaths);
    (0..source.below(3)).for_each(|_| source.damage(&mut recording));
    if source.below(4) == 0 {
        let most = source.one_of(&[LINE_BYTES, 2 * LINE_BYTES, 120, 400]) as u64;
        return harness.night_in_pieces(&recording, || source.buffers(most));
    }
    let start = source.below(recording.len() as u64 + 1) as usize;
    let start = recording[..start]
        .iter()
        .rposition(|&byte| byte == b'\n')
        .map_or(0, |at| at + 1);
    let buffers = source.buffers(400);
    let (last, state) = (source.number_in(0, 1), source.state());
    let bytes = &recording[start..][..buffers.bytes.min(recording.len() - start)];
    harness.piece(state, bytes, last, buffers.text);
}

impl Source {
    /// Buffers of at most so many bytes, half of them as large as that; one caller in 16 doesn't know the end yet.
    fn buffers(&mut self, most: u64) -> Buffers {
        let mut size = || self.below(most + 1).max(most * self.below(2)) as usize;
        Buffers {
            bytes: size(),
            text: size(),
            knows_end: self.below(16) > 0,
        }
    }

    /// A state that some recording has, one time in eight with a number changed.
    fn state(&mut self) -> State {
        if self.below(8) == 0 {
            return State::default();
        }
        let (rate, breath) = (1 + self.below(MOST_TICKS), 1 + self.below(LAST + 1));
        let largest = u64::from(longest(rate)) * (breath - 1);
        let whole = self.below(largest + 1);
        let mut numbers = [rate, breath, self.below(whole + 1), whole];
        if self.below(8) == 0 {
            let (any, strange) = (self.part(), self.one_of(&STRANGE));
            let [below, _, above] = around(largest);
            numbers[self.below(4) as usize] = self.one_of(&[any, strange, below, above]);
        }
        let [rate, breath, inspiration, whole] = numbers;
        State {
            rate,
            breath,
            inspiration,
            whole,
        }
    }
}
