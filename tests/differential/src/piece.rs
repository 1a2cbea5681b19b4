//! A night listed in pieces, from document 01, CRs 1, 3 and 7 of 02, and what include/slash.h says of its function.

use crate::night::{
    self, breath_of, check_rate, line, rate_of, stop_at, MOST_BREATHS, MOST_SECONDS,
};
use crate::paper::{Answer, Stop};

/// The most bytes of a line, its line feed counted: so much room a line of the listing is given.
const LINE_BYTES: usize = 33;

/// A night between two pieces: all 0 where nothing of it is read.
#[derive(Clone, Copy, Debug, Default, PartialEq, Eq)]
pub struct State {
    pub rate: u64,
    /// The number of the next breath.
    pub breath: u64,
    /// The sums so far.
    pub inspiration: u64,
    pub whole: u64,
}

/// What a piece comes to: the state behind it, the bytes that it used, its text, and whether the listing is whole.
#[derive(Clone, Debug, PartialEq, Eq)]
pub struct Piece {
    pub state: State,
    pub used: usize,
    pub text: Vec<u8>,
    pub ended: bool,
}

/// What is left to a call: the recording's bytes from a line on, whether they are its last, and the text's room.
#[derive(Clone, Copy)]
struct Left<'a> {
    bytes: &'a [u8],
    last: bool,
    room: usize,
}

/// The lines of as many breaths as are whole and have room; stop 255, then those of the line that the bytes begin
/// with.
pub fn piece(state: State, bytes: &[u8], last: bool, room: usize) -> Answer<Piece> {
    if !state.is_some_nights() {
        return Err(Stop {
            number: 255,
            place: 0,
        });
    }
    let mut listed = Piece {
        state,
        used: 0,
        text: Vec::new(),
        ended: false,
    };
    while !listed.ended {
        let left = Left {
            bytes: &bytes[listed.used..],
            last,
            room: room - listed.text.len(),
        };
        match listed.state.step(left) {
            Ok(Some(step)) => listed.add(step),
            Err(stop) if listed.used == 0 => return Err(stop),
            // A line that isn't whole or has no room, or one that the next call refuses.
            Ok(None) | Err(_) => break,
        }
    }
    Ok(listed)
}

impl Piece {
    fn add(&mut self, step: Piece) {
        self.state = step.state;
        self.used += step.used;
        self.text.extend(step.text);
        self.ended = step.ended;
    }
}

impl State {
    /// Whether a recording has it. A breath that isn't void has a whole from 1 to 120 times the rate and an in up to
    /// its whole, and void ones add nothing: so the sums are any numbers up to what so many of the longest have.
    fn is_some_nights(self) -> bool {
        if self == State::default() {
            return true;
        }
        let breaths = 1..=MOST_BREATHS as u64 + 1;
        if check_rate(self.rate).is_err() || !breaths.contains(&self.breath) {
            return false;
        }
        let longest = MOST_SECONDS * self.rate;
        self.inspiration <= self.whole && self.whole <= (self.breath - 1) * longest
    }

    /// What the next line comes to; none where it waits for bytes or for room. Every line waits for the room of the
    /// longest, the rate line and a refused one too.
    fn step(self, left: Left) -> Answer<Option<Piece>> {
        if left.room < LINE_BYTES {
            return Ok(None);
        }
        let Some(bytes) = left.bytes.split_inclusive(|&byte| byte == b'\n').next() else {
            return Ok(left.last.then_some(self.end()));
        };
        let is_whole = left.last || bytes.ends_with(b"\n") || bytes.len() >= LINE_BYTES;
        if !is_whole {
            return Ok(None);
        }
        let listed = if self == State::default() {
            self.rate_line(bytes)
        } else {
            self.breath_line(bytes)
        };
        listed.map(Some)
    }

    /// The rate line, of which nothing is listed.
    fn rate_line(self, bytes: &[u8]) -> Answer<Piece> {
        let rate = rate_of(bytes).map_err(stop_at(1))?;
        Ok(Piece {
            state: State {
                rate,
                breath: 1,
                ..self
            },
            used: bytes.len(),
            text: Vec::new(),
            ended: false,
        })
    }

    fn breath_line(self, bytes: &[u8]) -> Answer<Piece> {
        // The rate line is counted as a line, but as no breath.
        let stop = stop_at(self.breath as usize + 1);
        if self.breath > MOST_BREATHS as u64 {
            return Err(stop(8));
        }
        let breath = breath_of(bytes).map_err(stop)?;
        let sums = breath.added(self.rate, (self.inspiration, self.whole));
        let (inspiration, whole) = sums.expect("sums of 64 bits");
        Ok(Piece {
            state: State {
                breath: self.breath + 1,
                inspiration,
                whole,
                ..self
            },
            used: bytes.len(),
            text: line(&self.breath.to_string(), breath.word(self.rate)).into_bytes(),
            ended: false,
        })
    }

    /// The line `all`.
    fn end(self) -> Piece {
        let total = night::total((self.inspiration, self.whole));
        Piece {
            state: self,
            used: 0,
            text: line("all", total).into_bytes(),
            ended: true,
        }
    }
}

#[cfg(test)]
mod tests {
    use super::*;

    const RECORDING: &str = "rate\t1024\n0\t277\t642\n4294967290\t10\t34\n100\t100\t100\n";

    /// What a caller with buffers of these sizes lists, and the stop that ends it.
    fn listed(recording: &[u8], bytes: usize, room: usize) -> (Vec<u8>, Answer<()>) {
        let (mut state, mut rest, mut text) = (State::default(), recording, Vec::new());
        loop {
            let window = &rest[..rest.len().min(bytes)];
            let found = match piece(state, window, window.len() == rest.len(), room) {
                Ok(found) => found,
                Err(stop) => return (text, Err(stop)),
            };
            text.extend(&found.text);
            if found.ended {
                return (text, Ok(()));
            }
            // What the header promises of buffers that are large enough.
            assert!(found.used > 0 || window.len() == rest.len());
            (state, rest) = (found.state, &rest[found.used..]);
        }
    }

    #[test]
    fn all_texts_in_a_row_are_the_listing() {
        let lines = [
            RECORDING,
            "",
            "rate\t1\n",
            "rate\t1\n0\t1\t2\n0\t1\n",
            "rate\t1\nx",
            "rate\n",
        ];
        for recording in lines.map(str::as_bytes) {
            let printed = night::printed(recording);
            for (bytes, room) in (33..70).flat_map(|bytes| (33..70).map(move |room| (bytes, room)))
            {
                let (mut text, end) = listed(recording, bytes, room);
                if let Err(stop) = end {
                    text.extend(format!("refused\t{}\t{}\n", stop.number, stop.place).bytes());
                }
                assert_eq!(text, printed, "{bytes} {room}");
            }
        }
    }

    #[test]
    fn a_state_that_no_recording_has_gets_255() {
        let number = |rate, breath, inspiration, whole| {
            let state = State {
                rate,
                breath,
                inspiration,
                whole,
            };
            piece(state, b"", false, 0).map_or_else(|stop| stop.number, |_| 0)
        };
        for [rate, breath, inspiration, whole] in [
            [0; 4],
            [1, 1, 0, 0],
            [1, 2, 120, 120],
            [4096, 65537, 0, 491_520 * 65536],
        ] {
            assert_eq!(number(rate, breath, inspiration, whole), 0);
        }
        for [rate, breath, inspiration, whole] in [
            [0, 1, 0, 0],
            [0, 0, 0, 1],
            [1, 0, 0, 0],
            [4097, 1, 0, 0],
            [1, 65538, 0, 0],
            [1, 1, 0, 1],
            [1, 2, 2, 1],
            [1, 2, 0, 121],
            [4096, 65537, 0, 491_520 * 65536 + 1],
        ] {
            assert_eq!(number(rate, breath, inspiration, whole), 255);
        }
    }
}
