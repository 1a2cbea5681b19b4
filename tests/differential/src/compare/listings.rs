//! Listings to be read back: small ones of every kind, long ones, and random ones, good and damaged.

use crate::calls::Harness;
use crate::inputs::Source;
use crate::texts;
use differential::load;
use differential::night::{self, shares, stored, VOID};
use differential::paper;

/// The paper's listing.
const PAPERS: &str = "1\t01150282\t277/642\t43.1\n2\t00020005\t2/5\t40.0\n3\t00000000\t-\t-\n\
                      all\t012502aa\t293/682\t43.0\n";

/// One with a zero, a one, marks, and a total that isn't its breaths'.
const MARKED: &str = "1\t00008001\t0/1\t0.0\n2\t00010001\t1/1\t100.0\n3\t00018010\t1/16\t6.2\n\
                      all\t00000000\t-\t-\n";

/// Texts that stand in a column of some line, or almost.
const STRANGE_COLUMNS: [&str; 40] = [
    "",
    "-",
    "--",
    "0",
    "00",
    "01",
    "1",
    "2",
    "3",
    "+1",
    "1 ",
    "65536",
    "65537",
    "4294967297",
    "18446744073709551617",
    "all",
    "al",
    "ALL",
    "00000000",
    "0000000",
    "000000000",
    "0000000g",
    "0000000A",
    "00000001",
    "80000000",
    "0/1",
    "1/1",
    "2/2",
    "01/1",
    "1/",
    "/1",
    "1/1/1",
    "0.0",
    "100.0",
    "00.0",
    "0.00",
    "0.",
    ".0",
    "-\t-",
    "0/1\t0.0",
];

/// That of a night with nothing in it.
const NOTHING: &str = "all\t00000000\t-\t-\n";

/// As many places as the breaths of most of these listings, and more.
const ROOM: usize = 6;

// The exhaustive part.

pub fn every_listing(harness: &mut Harness, source: &mut Source) {
    for listing in [PAPERS, MARKED, NOTHING] {
        for text in texts::changed(listing.as_bytes()) {
            harness.load(&text, ROOM, ROOM);
        }
    }
    every_small_word(harness);
    every_tie(harness);
    every_three_lines(harness);
    every_list_length(harness);
    endless_columns(harness);
    long_listings(harness, source);
}

/// All words with small parts, of either sign and mark, in a breath's line, in that of the total and in a
/// total alone; with the columns that their parts have and with others.
fn every_small_word(harness: &mut Harness) {
    let parts = (0..=24).flat_map(|n| (0..=24).map(move |d| (n, d)));
    for ((n, d), top) in parts.flat_map(|pair| (0..4).map(move |top| (pair, top))) {
        let word = paper::pair_word(stored(), top / 2 == 1, (n, d), top % 2 == 1);
        let reduced = paper::rounded(stored(), n, d.max(1));
        for pair in [(n, d.max(1)), reduced, (n + 1, d.max(1))] {
            let (fraction, percentage) = shares(pair);
            hold_columns(harness, word, &format!("{fraction}\t{percentage}"));
        }
        hold_columns(harness, word, &format!("{n}/{d}\t0.0"));
        hold_columns(harness, word, "-\t-");
    }
}

/// Holds two listings of one breath, with these columns in its line and in the total's, and the total alone.
fn hold_columns(harness: &mut Harness, word: u64, columns: &str) {
    let line = format!("{word:08x}\t{columns}\n");
    for listing in [
        format!("1\t{line}{NOTHING}"),
        format!("1\t00000000\t-\t-\nall\t{line}"),
        format!("all\t{line}"),
    ] {
        harness.load(listing.as_bytes(), ROOM, ROOM);
    }
}

/// All fractions whose percentage lies halfway, with the tenths about it.
fn every_tie(harness: &mut Harness) {
    for d in [16, 80, 400, 2000] {
        for n in (1..d).step_by(2).filter(|n| n % 5 != 0 || d == 16) {
            let word = paper::pair_word(stored(), false, (n, d), false);
            for tenths in (1000 * n / d).saturating_sub(1)..=1000 * n / d + 2 {
                let columns = format!("{n}/{d}\t{}.{}", tenths / 10, tenths % 10);
                hold_columns(harness, word, &columns);
            }
        }
    }
}

/// Every text of at most three lines that have these names and these columns.
fn every_three_lines(harness: &mut Harness) {
    let names = ["0", "1", "2", "3", "01", "all", "al", ""];
    let columns = [
        "00000000\t-\t-\n",
        "00010002\t1/2\t50.0\n",
        "00010002\t1/2\t50.1\n",
        "00010002\t1/2\t-\n",
        "00010002\t1/2\t50.0",
    ];
    let with_columns = |name: &str| columns.map(|columns| format!("{name}\t{columns}"));
    let lines: Vec<String> = names.into_iter().flat_map(with_columns).collect();
    harness.load(b"", ROOM, ROOM);
    for first in &lines {
        harness.load(first.as_bytes(), ROOM, ROOM);
        for second in &lines {
            let two = format!("{first}{second}");
            harness.load(two.as_bytes(), ROOM, ROOM);
            for third in &lines {
                harness.load(format!("{two}{third}").as_bytes(), ROOM, ROOM);
            }
        }
    }
}

/// Listings of a few breaths, good and refused, with lists about as long.
fn every_list_length(harness: &mut Harness) {
    for breaths in 0..5 {
        let good = load::printed(&vec![0x0002_0005; breaths], VOID);
        let refused = &good[..good.len() - 1];
        for numbers in 0..=ROOM {
            for words in 0..=ROOM {
                harness.load(&good, numbers, words);
                harness.load(refused, numbers, words);
            }
        }
    }
}

/// Lines with a column of a million digits, and texts of a million tabs or line feeds.
fn endless_columns(harness: &mut Harness) {
    let digits = "1".repeat(1_000_000);
    for line in [
        format!("{digits}\t00000000\t-\t-\n"),
        format!("1\t{digits}\t-\t-\n"),
        format!("1\t00010002\t{digits}/2\t50.0\n"),
        format!("1\t00010002\t1/{digits}\t50.0\n"),
        format!("1\t00010002\t1/2\t{digits}.0\n"),
        format!("1\t00010002\t1/2\t50.{digits}\n"),
        digits.clone(),
        "\t".repeat(1_000_000),
        "\n".repeat(1_000_000),
    ] {
        harness.load(line.as_bytes(), ROOM, ROOM);
        for before in [PAPERS, NOTHING] {
            harness.load(format!("{before}{line}").as_bytes(), ROOM, ROOM);
        }
    }
}

/// Listings of about as many breaths as are allowed, good and damaged, with lists about as long.
fn long_listings(harness: &mut Harness, source: &mut Source) {
    for breaths in 65534..=65538 {
        let words: Vec<u64> = (0..breaths).map(|_| source.listed_word()).collect();
        let good = load::printed(&words, source.listed_word());
        for length in [65535, 65536, 65537] {
            harness.load(&good, length, 65536);
            harness.load(&good, 65536, length);
        }
        let mut damaged = good.clone();
        source.damage_listing(&mut damaged);
        harness.load(&damaged, 65536, 65536);
        let line_after_all = [&good[..], b"1\t00000000\t-\t-\n"].concat();
        harness.load(&line_after_all, 65536, 65536);
    }
}

// The random part.

pub fn random_listing(harness: &mut Harness, source: &mut Source) {
    let breaths = source.below(9) as usize;
    let mut listing = source.listing(breaths);
    (0..source.below(3)).for_each(|_| source.damage_listing(&mut listing));
    let (numbers, words) = (source.list_length(breaths), source.list_length(breaths));
    harness.load(&listing, numbers, words);
}

impl Source {
    /// A good listing of so many breaths, one that was printed for a recording or any other; of none, `all`,
    /// which is good where it is void.
    fn listing(&mut self, breaths: usize) -> Vec<u8> {
        if self.below(2) == 0 {
            let recording = self.recording(breaths);
            return night::listing(&recording).expect("a good recording");
        }
        let words: Vec<u64> = (0..breaths).map(|_| self.listed_word()).collect();
        load::printed(&words, self.listed_word())
    }

    /// A word that a listing may have: void, or a ratio from 0 to 1, marked or not.
    fn listed_word(&mut self) -> u64 {
        let (n, d) = match self.below(8) {
            0 => return VOID,
            1 => self.one_of(&[(0, 1), (1, 1), (32766, 32767)]),
            _ => self.pair(stored()),
        };
        let pair = paper::rounded(stored(), n.min(d), n.max(d));
        paper::pair_word(stored(), false, pair, self.below(2) == 1)
    }

    /// The length of a list: mostly about the breaths.
    fn list_length(&mut self, breaths: usize) -> usize {
        match self.below(16) {
            0 => self.below(10) as usize,
            1 => breaths.saturating_sub(1),
            2..=5 => breaths + 1,
            6 => breaths + 40,
            _ => breaths,
        }
    }

    /// Changes bytes, whole lines, a column or a word of a listing.
    fn damage_listing(&mut self, listing: &mut Vec<u8>) {
        match self.below(4) {
            0 => self.damage_bytes(listing),
            1 => self.damage_lines(listing),
            2 => self.damage_columns(listing),
            _ => self.damage_word(listing),
        }
    }

    /// Changes, takes out, doubles or puts in a byte, or cuts the listing off.
    fn damage_bytes(&mut self, listing: &mut Vec<u8>) {
        let place = self.below(listing.len() as u64 + 1) as usize;
        let any = self.bits() as u8;
        let byte = self.one_of(&[*b"\t\n0123456789afg/.- A", [any; 20]].concat());
        match self.below(8) {
            0..=2 if place < listing.len() => listing[place] = byte,
            3 | 4 if place < listing.len() => {
                listing.remove(place);
            }
            5 if place < listing.len() => listing.insert(place, listing[place]),
            6 => listing.truncate(place),
            _ => listing.insert(place, byte),
        }
    }

    /// Trades two lines, doubles one or takes one out.
    fn damage_lines(&mut self, listing: &mut Vec<u8>) {
        let mut lines: Vec<&[u8]> = listing.split_inclusive(|&byte| byte == b'\n').collect();
        if lines.is_empty() {
            return;
        }
        let [place, other] = [(); 2].map(|()| self.below(lines.len() as u64) as usize);
        match self.below(3) {
            0 => lines.swap(place, other),
            1 => lines.insert(place, lines[other]),
            _ => {
                lines.remove(place);
            }
        }
        *listing = lines.concat();
    }

    /// Puts a strange text in the place of one column of a line.
    fn damage_columns(&mut self, listing: &mut Vec<u8>) {
        let strange = self.one_of(&STRANGE_COLUMNS);
        let column = self.below(4) as usize;
        self.change_line(listing, |columns| {
            if let Some(text) = columns.get_mut(column) {
                *text = strange.to_string();
            }
        });
    }

    /// Puts any word in the place of a line's, half the time with the columns that its parts have.
    fn damage_word(&mut self, listing: &mut Vec<u8>) {
        let word = self.word_of(stored());
        let follows = self.below(2) == 0;
        let [_, n, _, d] = paper::fields(stored(), word);
        self.change_line(listing, |columns| {
            let [_, digits, fraction, percentage] = columns else {
                return;
            };
            *digits = format!("{word:08x}");
            if follows {
                (*fraction, *percentage) = shares((n, d.max(1)));
            }
        });
    }

    /// Changes the columns of some line.
    fn change_line(&mut self, listing: &mut Vec<u8>, change: impl FnOnce(&mut [String])) {
        let text = String::from_utf8_lossy(listing).into_owned();
        let mut lines: Vec<String> = text.split('\n').map(str::to_string).collect();
        let place = self.below(lines.len() as u64) as usize;
        let mut columns: Vec<String> = lines[place].split('\t').map(str::to_string).collect();
        change(&mut columns);
        lines[place] = columns.join("\t");
        *listing = lines.join("\n").into_bytes();
    }
}
