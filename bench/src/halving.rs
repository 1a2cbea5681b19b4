//! One breath and a night with halving, beside the archive.

use crate::contenders::{self, packed, Operation, Row};
use crate::inputs::Source;
use crate::{assert_row_alike, breath_row, line_apart, NightTimes, Times};

/// How often a row of random breaths is compared.
const RANDOM_ROWS: usize = 100;

/// The times are those of the table of calls and of the night in memory, where this form was the last in turn.
/// (In rounds with nothing between them the processor comes to predict the branches of so few breaths.)
pub fn section(rows: &[Row], times: &[Times], nights: &NightTimes) -> String {
    assert_alike();
    let mut section = String::from(
        "## Breaths with halving\n\n\
         The archive's times in the same rounds beside hand-written Rust by which, where the whole is at most 32767, \
         the ratio is held as it is, and its divisor found by halving and subtracting (`held` in \
         `bench/hand/src/breath.rs`): another algorithm than Euclid's loop, by which the archive goes, shown so \
         that nobody takes the columns above for the fastest there is.\n\n\
         | | Archive, ns | Hand-written Rust with halving |\n|---|--:|--:|\n",
    );
    for (row, [archive, .., halving]) in rows.iter().zip(times) {
        if row.operation == Operation::Breath {
            section += &line_apart(&row.name, archive, halving);
        }
    }
    let [archive, .., halving] = nights;
    section += &line_apart("a breath of a night in memory", archive, halving);
    section + "\n"
}

/// Holds the two hand-written forms to each other on random breaths at random rates; they are held to each other
/// on the recording where it is timed.
fn assert_alike() {
    let (mut row, mut source) = (breath_row(), Source::new(5));
    for _ in 0..RANDOM_ROWS {
        for inputs in &mut row.inputs {
            let (rate, marks) = source.any_breath();
            *inputs = packed(rate, marks);
        }
        assert_row_alike(&row, contenders::halving);
    }
}
