//! Lists a night's recording, of the file that is given or of standard input, without room for either: through 256
//! bytes of the recording and 256 of text. Prints what the program `night` prints.

use slash::{list_from, Stop};
use std::io::{self, Read};
use std::process::ExitCode;
use std::{env, fs::File};

fn main() -> io::Result<ExitCode> {
    let recording: Box<dyn Read> = match env::args_os().nth(1) {
        Some(path) => Box::new(File::open(path)?),
        None => Box::new(io::stdin()),
    };
    match list_from(recording, io::stdout())? {
        Ok(()) => Ok(ExitCode::SUCCESS),
        Err(stop) => {
            let Stop { number, place } = stop;
            println!("refused\t{number}\t{place}");
            eprintln!("pieces: line {place}: {}", stop.text());
            Ok(ExitCode::FAILURE)
        }
    }
}
