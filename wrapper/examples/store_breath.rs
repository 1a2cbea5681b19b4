//! Stores one breath as a slash word, as the recorder does, and reads its ratio back: 277 ticks in of 642. Then
//! lists a night of three breaths, and asks for what is refused.

use slash::{Format, Stop};
use std::cmp::Ordering;

/// The recorder's clock ticks so many times a second.
const RATE: u64 = 1024;

/// Prints a word of any format, the fraction that it holds, and its mark.
fn print_word(name: &str, form: Format, word: u64) -> Result<(), Stop> {
    println!("{name}: word {word:08x}, {}", slash::read(form, word)?);
    Ok(())
}

/// Prints why a call was refused, and the word that was there before.
fn print_refused(asked: &str, stop: Stop, word: u64) {
    let (number, text) = (stop.number, stop.text());
    println!("{asked}: stop {number}, {text}; the word is still {word:08x}");
}

/// Prints the listing of a recording, or why it has none.
fn print_night(recording: &str) {
    match slash::night(recording.as_bytes()) {
        Ok(listing) => print!("{}", String::from_utf8_lossy(&listing)),
        Err(stop) => {
            let (Stop { number, place }, text) = (stop, stop.text());
            println!("a night: stop {number} at line {place}, {text}; nothing is listed")
        }
    }
}

fn main() -> Result<(), Stop> {
    // The recorder's format holds the ratio.
    let recorder = Format::fixed(15);
    let breath = slash::breath(RATE, 0, 277, 642)?;
    print_word("fixed k = 15", recorder, breath)?;

    // A next onset before its onset reads as a breath of nearly the whole clock: it is void, its word 0.
    let overlong = slash::breath(RATE, 642, 919, 600)?;
    let note = if overlong == 0 { ", void" } else { "" };
    println!("an overlong breath: word {overlong:08x}{note}");

    // Nine bits can't hold the ratio: the word keeps the best pair that they hold, and is marked.
    let short = Format::fixed(9);
    print_word("fixed k = 9", short, slash::round(short, 277, 642)?)?;

    // To a floating word and back.
    let floating = Format::floating(26);
    let there = slash::convert(recorder, floating, breath)?;
    let back = slash::convert(floating, recorder, there)?;
    print_word("floating k = 26", floating, there)?;
    print_word("back to fixed k = 15", recorder, back)?;
    let equal = slash::compare(recorder, breath, back)? == Some(Ordering::Equal);
    println!(
        "the word that came back is {}",
        if equal { "equal" } else { "another" }
    );

    // Its partial quotients, in a list of just so many places.
    let places = slash::quotient_count(recorder, breath)?;
    let mut list = vec![0; places];
    slash::quotients(recorder, breath, &mut list)?;
    let quotients: Vec<String> = list.iter().map(u32::to_string).collect();
    println!("{places} partial quotients: {}", quotients.join(" "));

    // A refused call is an error.
    let stop = slash::round(recorder, 277, 0).expect_err("a denominator of 0");
    print_refused("277/0", stop, breath);
    let stop = slash::breath(0, 0, 277, 642).expect_err("a rate of 0");
    print_refused("rate 0", stop, breath);

    // A night, one with nothing in it, one whose second breath lacks a field, and one without its rate.
    print_night("rate\t1024\n0\t277\t642\n4294967290\t10\t34\n100\t100\t100\n");
    print_night("");
    print_night("rate\t1024\n0\t277\t642\n642\t900\n");
    print_night("0\t277\t642\n");
    Ok(())
}
