//! Twisting and counting with tables, beside the archive.

use crate::contenders::{self, Operation::*, Row};
use crate::inputs::Source;
use crate::{assert_row_alike, line_apart, row, Times};

/// The largest format of which every word is compared.
const SMALL_K: u64 = 12;

/// The times are those of the table of calls: in these rows this form was the third in turn.
pub fn section(rows: &[Row], times: &[Times]) -> String {
    assert_alike();
    let mut section = String::from(
        "## Twisting and counting with tables\n\n\
         The archive's calls of the same rounds beside hand-written Rust that looks the layout up by k and, \
         in a vector, masks and factors by slash position, with products in place of shifts and the \
         denominators of eight words turned at once \
         (`bench/hand/src/tables.rs`): another algorithm than the archive's, shown so that nobody takes the \
         column above for the fastest there is; it makes the tables of slash positions at each call, so that \
         short vectors take longer. Quotients are counted as the archive does it until the divisor is below 128, \
         and the last ones looked up in a table of 16 KB.\n\n\
         | | Archive, ns | Hand-written Rust with tables |\n|---|--:|--:|\n",
    );
    for (row, [archive, _, tables, _]) in rows.iter().zip(times) {
        if row.operation.has_tables() {
            section += &line_apart(&row.name, archive, tables);
        }
    }
    section + "\n"
}

/// Holds the two hand-written forms to each other, on every word of the small floating formats and on random
/// ones of the large; counts on random ones of the fixed formats too.
fn assert_alike() {
    let mut source = Source::new(2);
    for form in (2..=32).map(|k| (2, k)) {
        for (name, operation) in [
            ("twist", Twist),
            ("untwist", Untwist),
            ("twist, a vector", TwistEach),
            ("untwist, a vector", UntwistEach),
            ("count", QuotientCount),
        ] {
            let mut row = row(&mut source, name, operation, form, form);
            if form.1 <= SMALL_K {
                row.left = every_word(form.1);
                row.right = row.left.clone();
                row.inputs = row.left.iter().map(|&word| (word, word)).collect();
            }
            assert_row_alike(&row, contenders::tables);
        }
    }
    for form in (2..=31).map(|k| (1, k)) {
        let row = row(&mut source, "count", QuotientCount, form, form);
        assert_row_alike(&row, contenders::tables);
    }
}

/// Every good word of a floating format.
fn every_word(k: u64) -> Vec<u64> {
    let slash_bits = 64 - (k - 1).leading_zeros();
    let last = (1 << slash_bits) - 1;
    let position = |word: u64| word >> (k - 1) & last;
    (0..1 << (k + u64::from(slash_bits) + 1))
        .filter(|&word| position(word) < k - 1 || position(word) == last)
        .collect()
}
