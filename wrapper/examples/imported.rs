//! Imports breaths that a scoring package exported, as timings or as ratios: each record's ratio becomes a
//! word of fixed k = 15. Then the same again with a bad record among them, which is refused.

use slash::raw::{RECORD_RATIO, RECORD_TIMINGS};
use slash::{Format, Stop};

/// Seconds of inspiration and of the whole breath, or the ratio.
enum Record {
    Timings(f32, f32),
    Ratio(f32),
}

impl Record {
    /// The 12 bytes that the package exports: the kind and two numbers, lowest byte first.
    fn exported(&self) -> Vec<u8> {
        let fields = match self {
            Record::Timings(inspiration, whole) => {
                [RECORD_TIMINGS, inspiration.to_bits(), whole.to_bits()]
            }
            Record::Ratio(ratio) => [RECORD_RATIO, ratio.to_bits(), 0],
        };
        fields.into_iter().flat_map(u32::to_le_bytes).collect()
    }
}

/// Prints what a record says, and its word, the fraction that it holds, and its mark.
fn print_record(record: &Record, word: u64) -> Result<(), Stop> {
    match record {
        Record::Timings(inspiration, whole) => print!("{inspiration} s of {whole} s"),
        Record::Ratio(ratio) => print!("ratio {ratio}"),
    }
    println!(
        ": word {word:08x}, {}",
        slash::read(Format::fixed(15), word)?
    );
    Ok(())
}

/// Imports the records, in the bytes that the package exports, and prints their words, or why they are
/// refused.
fn print_imported(records: &[Record]) -> Result<(), Stop> {
    let exported: Vec<u8> = records.iter().flat_map(Record::exported).collect();
    let mut words = vec![0; records.len()];
    match slash::timings(&exported, &mut words) {
        Ok(()) => {
            for (record, word) in records.iter().zip(words) {
                print_record(record, word)?;
            }
        }
        Err(stop) => {
            let (Stop { number, place }, text) = (stop, stop.text());
            println!("the records: stop {number} at record {place}, {text}; no word is stored")
        }
    }
    Ok(())
}

fn main() -> Result<(), Stop> {
    // The floats for 1.6 and 0.1 lie close by, at fractions that no such word holds.
    let mut records = [
        Record::Timings(1.5, 4.0),
        Record::Timings(1.6, 4.0),
        Record::Ratio(0.375),
        Record::Ratio(0.1),
    ];
    print_imported(&records)?;

    // No inspiration is longer than its breath. Records are counted from 0.
    records[2] = Record::Timings(4.0, 1.5);
    print_imported(&records)
}
