//! Reads back the listing of a night, of which the recording wasn't kept: each breath's number and word,
//! and the total's word. Then that of a recorder that was never worn, and one in which a percentage was
//! changed.

use slash::{Loaded, Stop};

/// A word as it is printed here.
fn shown(word: u64) -> String {
    format!("word {word:08x}{}", if word == 0 { ", void" } else { "" })
}

/// Prints what a listing says, or why it is refused.
fn print_loaded(listing: &str) {
    match slash::load(listing.as_bytes()) {
        Ok(Loaded { words, total }) => {
            for (number, word) in (1..).zip(words) {
                println!("breath {number}: {}", shown(word));
            }
            println!("the night: {}", shown(total));
        }
        Err(stop) => {
            let (Stop { number, place }, text) = (stop, stop.text());
            println!("the listing: stop {number} at line {place}, {text}; nothing is read back")
        }
    }
}

fn main() {
    // What the program `night` printed.
    let listing = "1\t01150282\t277/642\t43.1\n\
                   2\t00020005\t2/5\t40.0\n\
                   3\t00000000\t-\t-\n\
                   all\t012502aa\t293/682\t43.0\n";
    print_loaded(listing);

    // And what it printed for a night with nothing in it: no breath, and a void total.
    print_loaded("all\t00000000\t-\t-\n");

    // 2/5 is 40.0 percent, and nothing else.
    print_loaded(&listing.replace("40.0", "41.0"));
}
