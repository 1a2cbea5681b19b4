//! A night's recording, listed by hand-written code: whole, or piece by piece as its bytes come.
//!
//! A bad line stops the call that begins with it, or with the recording, and nothing is stored.

use crate::breath::{self, BAD_RATE, VOID};
use crate::line::{in_window, Listing, MOST_BREATHS, MOST_BYTES};
use crate::{round, Answer};

/// The bytes of the longest listing.
pub const LISTING_BYTES: usize = 2_162_719;

/// The largest tick mark, the longest that is none too large.
const LARGEST_MARK: &[u8] = b"4294967295";

/// The number that the breath behind the last one would have.
const BEHIND_ALL: u64 = MOST_BREATHS as u64 + 1;

/// What stands before the rate in its line.
const RATE: &[u8] = b"rate\t";

/// Lists a recording and gives the listing's length. It is read through before anything is stored.
#[inline]
pub fn night<const HALVING: bool>(recording: &[u8], listing: &mut [u8]) -> Answer {
    if let End::Refused { number, line } = end_of(recording) {
        return Err(line * 256 + number);
    }
    let mut night = Night::<HALVING>::begun();
    Ok(night.piece(recording, true, listing).length as u64)
}

/// How a recording ends, which is read through.
#[inline]
fn end_of(recording: &[u8]) -> End {
    let (mut breath, mut rest) = match first_line(recording) {
        Ok((_, used)) => (1, &recording[used..]),
        Err(end) => return end,
    };
    loop {
        match next_line(breath, rest, good_line) {
            Ok(used) => (breath, rest) = (breath + 1, &rest[used..]),
            Err(end) => return end,
        }
    }
}

/// A night between two pieces, as C has it: all 0 where nothing of it is read.
#[repr(C)]
#[derive(Clone, Copy, Debug, Default, PartialEq, Eq)]
pub struct State {
    pub rate: u64,
    /// The number of the next breath.
    pub breath: u64,
    pub inspiration: u64,
    pub whole: u64,
}

/// The stop of a state that no recording has.
const NO_NIGHT: u64 = 255;

/// A night that is being listed, with HALVING as `breath` says.
pub struct Night<const HALVING: bool> {
    /// The ticks of the longest breath that isn't void; 0 before the rate line is read.
    longest: u32,
    /// The number of the next breath.
    breath: u32,
    in_sum: u64,
    whole_sum: u64,
}

/// What was listed: the bytes that it used, the bytes of text that it stored, and whether it goes on.
pub struct Piece {
    pub used: usize,
    pub length: usize,
    pub end: End,
}

/// A listing goes on, is whole, or stops at a line.
pub enum End {
    Open,
    Closed,
    Refused { number: u64, line: u64 },
}

impl<const HALVING: bool> Night<HALVING> {
    pub fn begun() -> Self {
        Night {
            longest: 0,
            breath: 1,
            in_sum: 0,
            whole_sum: 0,
        }
    }

    /// The night of a state. Breaths that aren't void have any whole from 1 to the longest, and any in up to that: so
    /// all sums within these limits are those of some breaths.
    #[inline]
    pub fn of(state: State) -> Result<Self, u64> {
        if state == State::default() {
            return Ok(Night::begun());
        }
        let (Some(longest), 1..=BEHIND_ALL) = (breath::longest(state.rate), state.breath) else {
            return Err(NO_NIGHT);
        };
        if state.inspiration > state.whole || state.whole > (state.breath - 1) * u64::from(longest)
        {
            return Err(NO_NIGHT);
        }
        Ok(Night {
            longest,
            breath: state.breath as u32,
            in_sum: state.inspiration,
            whole_sum: state.whole,
        })
    }

    /// The state of the night.
    #[inline]
    pub fn state(&self) -> State {
        if self.longest == 0 {
            return State::default();
        }
        State {
            rate: breath::rate(self.longest),
            breath: self.breath.into(),
            inspiration: self.in_sum,
            whole: self.whole_sum,
        }
    }

    /// Lists the lines at the start of some bytes, while they are sure and have room, the rate line too. A stop
    /// behind lines that were used is left to the call that begins with its line, which stores nothing.
    #[inline]
    pub fn piece(&mut self, recording: &[u8], last: bool, bytes: &mut [u8]) -> Piece {
        let mut listing = Listing { bytes, length: 0 };
        let (rest, end) = self.lines(recording, last, &mut listing);
        let used = recording.len() - rest.len();
        Piece {
            used,
            length: listing.length,
            end: match end {
                End::Refused { .. } if used > 0 => End::Open,
                end => end,
            },
        }
    }

    /// Lists lines; gives the bytes that are left, and how they go on.
    #[inline]
    fn lines<'a>(
        &mut self,
        recording: &'a [u8],
        last: bool,
        listing: &mut Listing,
    ) -> (&'a [u8], End) {
        if listing.bytes.len() < MOST_BYTES {
            return (recording, End::Open);
        }
        match self.rate_line(recording, last) {
            Ok(used) => self.breaths(&recording[used..], last, listing),
            Err(end) => (recording, end),
        }
    }

    /// Reads the rate line, if it is due, there and sure, and gives the bytes that it uses.
    #[inline]
    fn rate_line(&mut self, recording: &[u8], last: bool) -> Result<usize, End> {
        let is_due = self.longest == 0 && !recording.is_empty();
        if !is_due || !(last || is_sure(recording)) {
            return Ok(0);
        }
        let (longest, used) = first_line(recording)?;
        self.longest = longest;
        Ok(used)
    }

    /// Lists breaths, and behind the last one the total; gives the bytes that are left, and how they go on.
    #[inline]
    fn breaths<'a>(
        &mut self,
        breaths: &'a [u8],
        last: bool,
        listing: &mut Listing,
    ) -> (&'a [u8], End) {
        let room = listing.bytes.len();
        let mut rest = breaths;
        while room - listing.length >= MOST_BYTES && (last || is_sure(rest)) {
            match next_line(self.breath, rest, breath_line) {
                Ok((inward, whole, used)) => {
                    listing.decimal(self.breath);
                    listing.word(self.add(inward, whole));
                    rest = &rest[used..];
                }
                Err(End::Closed) => {
                    listing.text(b"all");
                    listing.word(self.total());
                    return (rest, End::Closed);
                }
                Err(refused) => return (rest, refused),
            }
        }
        (rest, End::Open)
    }

    /// The word of the next breath, which is added to the sums unless it is void.
    #[inline]
    fn add(&mut self, inward: u32, whole: u32) -> u32 {
        let word = breath::word::<HALVING>(self.longest, inward, whole);
        if word != VOID {
            self.in_sum += u64::from(inward);
            self.whole_sum += u64::from(whole);
        }
        self.breath += 1;
        word
    }

    /// The word of the total. A whole of 0, which void breaths leave, is refused as a denominator.
    #[inline]
    fn total(&self) -> u32 {
        round(1, 15, self.in_sum, self.whole_sum).map_or(VOID, |word| word as u32)
    }
}

/// Whether no byte that follows these changes what their first line says.
#[inline]
fn is_sure(rest: &[u8]) -> bool {
    rest.len() >= MOST_BYTES || rest.contains(&b'\n')
}

/// The ticks of the longest breath by the rate line and the bytes that it uses, or how the recording ends there.
#[inline]
fn first_line(recording: &[u8]) -> Result<(u32, usize), End> {
    if recording.is_empty() {
        return Err(End::Closed);
    }
    in_window(recording, longest).ok_or_else(|| {
        let number = line_text(recording).map_or(9, |_| BAD_RATE);
        End::Refused { number, line: 1 }
    })
}

/// What is read of the line of the breath with this number, or how the recording ends there.
#[inline]
fn next_line<T>(
    breath: u32,
    rest: &[u8],
    read: impl Fn(&[u8; MOST_BYTES]) -> Option<T>,
) -> Result<T, End> {
    if rest.is_empty() {
        return Err(End::Closed);
    }
    let number = if breath > MOST_BREATHS {
        8
    } else if let Some(found) = in_window(rest, read) {
        return Ok(found);
    } else {
        stop(rest)
    };
    // The rate line is the first.
    let line = u64::from(breath) + 1;
    Err(End::Refused { number, line })
}

/// The ticks of the longest breath by a good rate line, and the bytes that it uses.
#[inline]
fn longest(line: &[u8; MOST_BYTES]) -> Option<(u32, usize)> {
    if !line.starts_with(RATE) {
        return None;
    }
    let (rate, used) = mark(line, RATE.len(), b'\n')?;
    Some((breath::longest(rate.into())?, used))
}

/// The bytes that a good breath's line uses.
#[inline]
fn good_line(line: &[u8; MOST_BYTES]) -> Option<usize> {
    let peak_at = good_mark(line, 0, b'\t')?;
    let next_at = good_mark(line, peak_at, b'\t')?;
    good_mark(line, next_at, b'\n')
}

/// The place behind the tick mark from a place on and the byte `end` that ends it. The largest marks
/// have ten digits, whose order as text is that of their numbers.
#[inline]
fn good_mark(line: &[u8; MOST_BYTES], from: usize, end: u8) -> Option<usize> {
    let mut at = from;
    while at < from + 10 && line[at].is_ascii_digit() {
        at += 1;
    }
    let good = line[at] == end
        && at > from
        && (line[from] != b'0' || at == from + 1)
        && (at < from + 10 || line[from..from + 10] <= *LARGEST_MARK);
    good.then_some(at + 1)
}

/// A breath's durations, in and whole, and the bytes that its line uses.
#[inline]
fn breath_line(line: &[u8; MOST_BYTES]) -> Option<(u32, u32, usize)> {
    let (onset, peak_at) = mark(line, 0, b'\t')?;
    let (peak, next_at) = mark(line, peak_at, b'\t')?;
    let (next, used) = mark(line, next_at, b'\n')?;
    Some((peak.wrapping_sub(onset), next.wrapping_sub(onset), used))
}

/// The number of 32 bits from a place on that the byte `end` ends, and the place behind both. Ten digits
/// fit 64 bits, and no such number has more.
#[inline]
fn mark(line: &[u8; MOST_BYTES], from: usize, end: u8) -> Option<(u32, usize)> {
    let (mut value, mut at) = (0u64, from);
    while at < from + 10 && line[at].is_ascii_digit() {
        value = value * 10 + u64::from(line[at] - b'0');
        at += 1;
    }
    let good = line[at] == end
        && at > from
        && value <= u64::from(u32::MAX)
        && (line[from] != b'0' || at == from + 1);
    good.then_some((value as u32, at + 1))
}

/// The first line of some bytes without its line feed, if that comes soon enough.
fn line_text(bytes: &[u8]) -> Option<&[u8]> {
    let window = &bytes[..bytes.len().min(MOST_BYTES)];
    let end = window.iter().position(|&byte| byte == b'\n')?;
    Some(&window[..end])
}

/// Why a line that isn't three tick marks is refused.
#[cold]
fn stop(bytes: &[u8]) -> u64 {
    let Some(text) = line_text(bytes) else {
        return 9;
    };
    let tabs = text.iter().filter(|&&byte| byte == b'\t').count();
    if tabs == 2 {
        11
    } else {
        10
    }
}
