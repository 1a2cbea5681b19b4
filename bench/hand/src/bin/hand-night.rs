//! Standard input's recording, listed on standard output piece by piece as it comes.

use handwritten::night::{End, Night};
use std::fs::File;
use std::io::{self, Read, Write};
use std::mem::ManuallyDrop;
use std::os::fd::FromRawFd;

fn main() -> io::Result<()> {
    // SAFETY: the program's own standard input and output, which are not closed here.
    let (mut input, mut output) = unsafe {
        (
            ManuallyDrop::new(File::from_raw_fd(0)),
            ManuallyDrop::new(File::from_raw_fd(1)),
        )
    };
    let (mut bytes, mut text) = ([0; 16384], [0; 32768]);
    // Without halving, as the archive goes.
    let (mut night, mut held, mut last) = (Night::<false>::begun(), 0, false);
    loop {
        if !last {
            let count = input.read(&mut bytes[held..])?;
            held += count;
            last = count == 0;
        }
        let piece = night.piece(&bytes[..held], last, &mut text);
        output.write_all(&text[..piece.length])?;
        match piece.end {
            End::Open => {}
            End::Closed => return Ok(()),
            End::Refused { number, line } => {
                return output.write_all(format!("refused\t{number}\t{line}\n").as_bytes());
            }
        }
        bytes.copy_within(piece.used..held, 0);
        held -= piece.used;
    }
}
