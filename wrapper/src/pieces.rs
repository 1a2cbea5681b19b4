//! Nights listed in pieces, for one who keeps neither a whole recording nor a whole listing.

use crate::{header, raw, Stop};
use std::io::{self, ErrorKind, Read, Write};

/// The most bytes of a line, its line feed counted, of a recording and of a listing.
pub const LINE_BYTES: usize = header::LINE_BYTES as usize;

/// A night that is listed in pieces: what is kept of it from one piece to the next.
#[derive(Clone, Debug, Default, PartialEq, Eq)]
pub struct Night {
    state: raw::NightState,
}

/// What a piece came to.
#[derive(Clone, Copy, Debug, PartialEq, Eq)]
pub struct Piece {
    /// So many bytes of the recording are listed.
    pub used: usize,
    /// So many bytes of text are stored.
    pub length: usize,
    /// Whether the listing is whole, its line `all` stored.
    pub ended: bool,
}

impl Night {
    /// A night of which nothing is read.
    pub fn new() -> Night {
        Night::default()
    }

    /// Lists as many breaths of these bytes as are whole and have room at the start of the text, whose rest stays
    /// as it was. `last` tells that no bytes follow these.
    ///
    /// A piece that hasn't ended goes on by the next call, with the bytes that weren't used and those that follow
    /// them. With [`LINE_BYTES`] of each it always goes on. All texts in a row are the listing of
    /// [`night`](crate::night).
    ///
    /// Stops are those of [`night`](crate::night), with the line: a line is refused by the call that begins with
    /// it, when the lines before it are listed.
    pub fn piece(&mut self, bytes: &[u8], last: bool, text: &mut [u8]) -> Result<Piece, Stop> {
        let mut piece = raw::Piece::default();
        // SAFETY: the pointers come from live, aligned Rust values, with their lengths.
        Stop::check(unsafe {
            raw::slash_night_piece(
                &mut self.state,
                bytes.as_ptr(),
                bytes.len(),
                last.into(),
                text.as_mut_ptr(),
                text.len(),
                &mut piece,
            )
        })?;
        Ok(Piece {
            used: piece.used as usize,
            length: piece.length as usize,
            ended: piece.ended != 0,
        })
    }
}

/// The bytes of each of the two buffers of [`list_from`].
const BUFFER_BYTES: usize = 256;

/// Reads a recording and writes its listing, as the program `night` does, through two buffers of 256 bytes.
///
/// Each read and each write has at most so many bytes: where that is slow, lend a `BufReader` and a `BufWriter`.
/// A refused recording is answered with its stop, those of [`night`](crate::night), when the lines before the
/// refused one are listed. The outer error is the reader's or the writer's.
pub fn list_from(mut reader: impl Read, mut writer: impl Write) -> io::Result<Result<(), Stop>> {
    let (mut bytes, mut text) = ([0; BUFFER_BYTES], [0; BUFFER_BYTES]);
    let mut night = Night::new();
    let mut held = 0; // So many bytes are read and not listed.
    let mut last = false;
    loop {
        if !last {
            // There is room: of as many bytes as a line may have, a piece uses some.
            let count = read_some(&mut reader, &mut bytes[held..])?;
            held += count;
            last = count == 0;
        }
        let piece = match night.piece(&bytes[..held], last, &mut text) {
            Ok(piece) => piece,
            Err(stop) => return Ok(Err(stop)),
        };
        writer.write_all(&text[..piece.length])?;
        if piece.ended {
            return Ok(Ok(()));
        }
        bytes.copy_within(piece.used..held, 0);
        held -= piece.used;
    }
}

/// Reads what there is, and reads again where that was interrupted.
fn read_some(reader: &mut impl Read, bytes: &mut [u8]) -> io::Result<usize> {
    loop {
        match reader.read(bytes) {
            Err(error) if error.kind() == ErrorKind::Interrupted => {}
            answer => return answer,
        }
    }
}
