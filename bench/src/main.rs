//! Times the archive beside other ways to the same results, and prints a table: bench FOLDER NIGHT.
//!
//! FOLDER has this project's bench/ and NIGHT is the program `night`, or `-` where there is none yet.
//! The contenders take turns within each round, and each is first in its turn. A time shown is the median over the rounds, and a ratio
//! is the median of the rounds' ratios, so that what slows a round down slows both its parts.

mod contenders;
mod halving;
mod inputs;
mod loading;
mod pieces;
mod tables;
mod timings;

use contenders::{folded, listed, Operation, Row, NIGHTS};
use inputs::{Source, RATE};
use std::fmt::Write as _;
use std::fs::{self, File};
use std::path::{Path, PathBuf};
use std::process::{Command, Stdio};
use std::time::Instant;

const ROUNDS: usize = 41;

/// Python takes part in one round of so many.
const PYTHON_EVERY: usize = 5;

/// How many calls each contender makes in a round; Python makes the first few of them.
const CALLS: usize = 5_000;
const PYTHON_CALLS: usize = 1_000;

/// The rounds of whole processes.
const PROCESS_ROUNDS: usize = 31;

const BREATHS: usize = 65_536;

/// What a byte holds that is lent for a listing where two listings are compared.
const LENT_BYTE: u8 = 0xa5;

fn main() {
    let arguments: Vec<String> = std::env::args().skip(1).collect();
    let [folder, night] = &arguments[..] else {
        panic!("usage: bench FOLDER NIGHT")
    };
    contenders::start_gmp();
    let mut source = Source::new(1);
    let mut rows = rows(&mut source);
    let recording = source.recording(BREATHS);
    rows.extend(twisting_rows(&mut source));
    rows.extend(counting_rows());
    rows.push(breath_row());
    rows.extend(value_rows());
    let room = std::env::temp_dir().join(format!("bench-{}", std::process::id()));
    fs::create_dir_all(&room).expect("a temporary folder");
    print!("{}", head());
    let (times, python_ratios) = timed_rows(&rows, &room, Path::new(folder));
    print!("{}", table_of_calls(&rows, &times, &python_ratios));
    print!("{}", tables::section(&rows, &times));
    let nights = timed_nights(&recording);
    print!(
        "{}",
        table_of_nights(&recording, &nights, &room, Path::new(folder), night)
    );
    print!("{}", pieces::section(&recording));
    print!("{}", halving::section(&rows, &times, &nights));
    print!("{}", loading::section(&recording));
    print!("{}", timings::section(&mut source));
    fs::remove_dir_all(&room).expect("the temporary folder");
}

// Rows.

const FIXED_15: (u64, u64) = (1, 15);
const FIXED_31: (u64, u64) = (1, 31);
const FLOATING_26: (u64, u64) = (2, 26);
const FLOATING_32: (u64, u64) = (2, 32);

const BINARY_NAMES: [&str; 4] = ["add", "subtract", "multiply", "divide"];
const UNARY_NAMES: [&str; 7] = [
    "negate",
    "absolute value",
    "reciprocal",
    "floor",
    "ceiling",
    "mod 1",
    "normalise",
];

fn rows(source: &mut Source) -> Vec<Row> {
    use Operation::*;
    let mut rows = Vec::new();
    let mut ask = |name: &str, operation: Operation, form: (u64, u64), target: (u64, u64)| {
        rows.push(row(source, name, operation, form, target));
    };
    for form in [FIXED_15, FIXED_31, FLOATING_32] {
        ask("round", Round, form, form);
    }
    for form in [FIXED_15, FIXED_31, FLOATING_32] {
        for (name, code) in BINARY_NAMES.into_iter().zip(1..) {
            ask(name, Binary(code), form, form);
        }
    }
    ask("compare", Compare, FIXED_15, FIXED_15);
    for (name, code) in UNARY_NAMES.into_iter().zip(1..) {
        ask(name, Unary(code), FIXED_15, FIXED_15);
    }
    ask("greatest common divisor", Gcd, FIXED_15, FIXED_15);
    ask("partial quotients", Quotients, FIXED_15, FIXED_15);
    ask("convert", Convert, FIXED_31, FIXED_15);
    ask("convert", Convert, FIXED_15, FLOATING_26);
    ask("add, a vector", BinaryEach(1), FIXED_15, FIXED_15);
    ask("floor, a vector", UnaryEach(4), FIXED_15, FIXED_15);
    ask("convert, a vector", ConvertEach, FIXED_31, FIXED_15);
    rows
}

/// Its inputs are drawn from a source of its own, so that all others have those that they had.
fn breath_row() -> Row {
    let (name, operation) = ("one breath, stored", Operation::Breath);
    row(&mut Source::new(4), name, operation, FIXED_15, FIXED_15)
}

/// Words taken apart, and fractions written whose parts the format holds, in lowest terms or not. Their inputs are
/// drawn from a source of their own, for the same reason.
fn value_rows() -> Vec<Row> {
    let mut source = Source::new(6);
    let mut rows = Vec::new();
    for (name, operation) in [("read", Operation::Read), ("write", Operation::Write)] {
        for form in [FIXED_15, FIXED_31, FLOATING_32] {
            rows.push(row(&mut source, name, operation, form, form));
        }
    }
    rows
}

/// Their inputs are drawn from a source of their own, for the same reason.
fn counting_rows() -> Vec<Row> {
    let mut source = Source::new(3);
    [FIXED_15, FIXED_31, FLOATING_32]
        .map(|form| {
            let (name, operation) = ("count of the quotients", Operation::QuotientCount);
            row(&mut source, name, operation, form, form)
        })
        .into()
}

/// Their inputs are drawn last, so that every other row and the recording have those that they had.
fn twisting_rows(source: &mut Source) -> Vec<Row> {
    use Operation::*;
    let mut rows = Vec::new();
    for (name, operation) in [
        ("twist", Twist),
        ("untwist", Untwist),
        ("twist, a vector", TwistEach),
        ("untwist, a vector", UntwistEach),
    ] {
        for form in [FLOATING_32, FLOATING_26] {
            rows.push(row(source, name, operation, form, form));
        }
    }
    rows
}

fn row(
    source: &mut Source,
    name: &str,
    operation: Operation,
    form: (u64, u64),
    target: (u64, u64),
) -> Row {
    let inputs = inputs_of(source, operation, form);
    let (left, right) = inputs.iter().copied().unzip();
    let arrow = if form == target {
        String::new()
    } else {
        format!(" to {}", format_name(target))
    };
    let name = format!("{name}, {}{arrow}", format_name(form));
    Row {
        name,
        operation,
        form,
        target,
        inputs,
        left,
        right,
    }
}

fn inputs_of(source: &mut Source, operation: Operation, form: (u64, u64)) -> Vec<(u64, u64)> {
    if operation == Operation::Breath {
        let packed = |marks| contenders::packed(RATE, marks);
        return source.marks(CALLS).into_iter().map(packed).collect();
    }
    // Ratios of tick counts in the recorder's format, of any numbers in the largest.
    let ratio_bits = if form == FIXED_15 { 32 } else { 64 };
    (0..CALLS)
        .map(|_| match operation {
            Operation::Round => source.ratio(ratio_bits),
            Operation::Write => source.fraction(form),
            _ => (source.word(form), source.word(form)),
        })
        .collect()
}

fn format_name((kind, k): (u64, u64)) -> String {
    format!("{} k = {k}", if kind == 1 { "fixed" } else { "floating" })
}

// Times.

fn median(times: &[f64]) -> f64 {
    let mut sorted = times.to_vec();
    sorted.sort_by(f64::total_cmp);
    sorted[sorted.len() / 2]
}

/// The median of how many times as long as the first the second took in the same round.
fn ratio(first: &[f64], second: &[f64]) -> f64 {
    let ratios: Vec<f64> = second.iter().zip(first).map(|(b, a)| b / a).collect();
    median(&ratios)
}

/// The contenders of a round: whoever is first finds the inputs cold, so that each is first in its turn.
fn in_turn(count: usize, round: usize) -> impl Iterator<Item = usize> {
    (0..count).map(move |step| (round + step) % count)
}

/// The nanoseconds that a call takes, and its result.
fn timed<T>(call: impl FnOnce() -> T) -> (f64, T) {
    let start = Instant::now();
    let result = call();
    (start.elapsed().as_nanos() as f64, result)
}

/// A contender: stores the results of a row's first inputs, as many as there are places.
type Contender = fn(&Row, &mut [u64]);

/// Those that take part in a row. They are three at least: whoever is first is slower, so that of two a ratio
/// would be below the true one in every other round and above it in the rest, and their median anywhere
/// between; with three the rounds in which neither was first are in the middle.
fn contenders_of(row: &Row) -> Vec<Contender> {
    use contenders::{archive, gmp, halving, hand, tables};
    match row.operation {
        Operation::Breath => vec![archive, hand, gmp, halving],
        operation if operation.has_tables() => vec![archive, hand, tables],
        _ => vec![archive, hand, gmp],
    }
}

/// The nanoseconds a call of a row's contenders, round by round; a fourth one's only in the row of a breath.
type Times = [Vec<f64>; 4];

/// The nanoseconds that a contender takes for a row, and the checksum of its results.
fn timed_row(contender: Contender, row: &Row, out: &mut [u64]) -> (f64, u64) {
    out.fill(0);
    let (spent, ()) = timed(|| contender(row, out));
    (spent, folded(out.iter().copied()))
}

/// Holds the hand-written Rust and another form of it to each other, on all inputs of a row.
fn assert_row_alike(row: &Row, other: Contender) {
    let [hand, other] = [contenders::hand, other].map(|contender| {
        let mut out = vec![0; row.inputs.len()];
        contender(row, &mut out);
        out
    });
    assert!(hand == other, "{} by another form", row.name);
}

/// The times of each row, and how many times as long as the archive Python takes.
fn timed_rows(rows: &[Row], room: &Path, folder: &Path) -> (Vec<Times>, Vec<Vec<f64>>) {
    let asked = room.join("rows");
    write_rows(rows, &asked);
    let mut out = vec![0; CALLS];
    let mut times = vec![Times::default(); rows.len()];
    // Python's times, each with the archive's of the same round.
    let mut python_ratios = vec![Vec::new(); rows.len()];
    for round in 0..ROUNDS {
        for (row, times) in rows.iter().zip(&mut times) {
            let contenders = contenders_of(row);
            let mut sums = Vec::new();
            for at in in_turn(contenders.len(), round) {
                let (spent, sum) = timed_row(contenders[at], row, &mut out);
                times[at].push(spent / CALLS as f64);
                sums.push(sum);
            }
            assert!(
                sums.iter().all(|&sum| sum == sums[0]),
                "{}: {sums:?}",
                row.name
            );
        }
        if round % PYTHON_EVERY == 0 {
            let python = python_times(&folder.join("python_contender.py"), &asked);
            assert_eq!(python.len(), rows.len());
            for (at, (spent, sum)) in python.into_iter().enumerate() {
                let (_, expected) =
                    timed_row(contenders::archive, &rows[at], &mut out[..PYTHON_CALLS]);
                assert_eq!(sum, expected, "{} in Python", rows[at].name);
                python_ratios[at].push(spent / times[at][0][round]);
            }
        }
    }
    (times, python_ratios)
}

fn table_of_calls(rows: &[Row], times: &[Times], python_ratios: &[Vec<f64>]) -> String {
    let mut table = String::from(
        "## Calls\n\n\
         Nanoseconds a call (a vector: a place), then how many times as long as the archive each of the \
         others takes: below 1 it is faster, above 1 slower. A dash: it takes no part. (To read a word takes no \
         rational: there GMP's column is plain C.)\n\n\
         | | Archive, ns | Hand-written Rust | GMP | Python's Fraction |\n|---|--:|--:|--:|--:|\n",
    );
    for ((row, [archive, hand, third, _]), python) in rows.iter().zip(times).zip(python_ratios) {
        let gmp = if row.operation.has_tables() {
            "–".to_string()
        } else {
            format!("{:.1}", ratio(archive, third))
        };
        writeln!(
            table,
            "| {} | {:.1} | {:.2} | {gmp} | {:.0} |",
            row.name,
            median(archive),
            ratio(archive, hand),
            median(python)
        )
        .expect("a row");
    }
    table + "\n"
}

/// A line of a table apart: the archive's time and another algorithm's ratio to it.
fn line_apart(name: &str, archive: &[f64], other: &[f64]) -> String {
    format!(
        "| {name} | {:.1} | {:.2} |\n",
        median(archive),
        ratio(archive, other)
    )
}

/// Writes the first inputs of all rows for Python.
fn write_rows(rows: &[Row], path: &Path) {
    let mut text = String::new();
    for row in rows {
        let ((kind, k), (to_kind, to_k)) = (row.form, row.target);
        let (name, code) = contenders::python_name(row.operation);
        text += &format!("{name} {code} {kind} {k} {to_kind} {to_k} {PYTHON_CALLS}\n");
        for (a, b) in &row.inputs[..PYTHON_CALLS] {
            text += &format!("{a} {b}\n");
        }
    }
    fs::write(path, text).expect("the rows");
}

/// The nanoseconds a call and the checksum of each row, by Python's own clock.
fn python_times(script: &Path, rows: &Path) -> Vec<(f64, u64)> {
    let output = Command::new("python3")
        .arg(script)
        .arg(rows)
        .output()
        .expect("python3");
    assert!(
        output.status.success(),
        "{}",
        String::from_utf8_lossy(&output.stderr)
    );
    let text = String::from_utf8(output.stdout).expect("text");
    let parse = |line: &str| {
        let (spent, sum) = line.split_once(' ').expect("two numbers");
        (
            spent.parse().expect("nanoseconds"),
            sum.parse().expect("a checksum"),
        )
    };
    text.lines().map(parse).collect()
}

// Nights.

fn table_of_nights(
    recording: &[u8],
    nights: &NightTimes,
    room: &Path,
    folder: &Path,
    night: &str,
) -> String {
    let input = room.join("recording");
    fs::write(&input, recording).expect("the recording");
    // Without its last line feed it is refused behind all other lines.
    let refused = room.join("refused");
    fs::write(&refused, &recording[..recording.len() - 1]).expect("the refused recording");
    let mut table = format!(
        "## A night\n\nA recording of {BREATHS} breaths like a sleeper's, {} bytes.\n\n",
        recording.len()
    );
    table += &in_memory(nights);
    table += &whole_processes(&input, &refused, &folder.join("night.py"), night);
    table
}

/// The nanoseconds a breath of the library's function and the hand-written ones, round by round.
type NightTimes = [Vec<f64>; NIGHTS.len()];

fn timed_nights(recording: &[u8]) -> NightTimes {
    for bytes in [0, 1, recording.len() / 2, recording.len()] {
        assert_listed_alike(&recording[..bytes]);
    }
    let mut listing = vec![0; slash::raw::LISTING_BYTES];
    let mut times = NightTimes::default();
    for round in 0..ROUNDS {
        for at in in_turn(NIGHTS.len(), round) {
            let (spent, (status, _)) = timed(|| listed(NIGHTS[at], recording, &mut listing));
            assert_eq!(status, 0);
            times[at].push(spent / BREATHS as f64);
        }
    }
    times
}

/// The library's function beside the hand-written one.
fn in_memory([archive, hand, _]: &NightTimes) -> String {
    format!(
        "In memory: the archive's `slash_night` takes {:.1} ns a breath, hand-written Rust {:.2} times \
         as long. Both read the recording through before they store anything, as a refused one must \
         leave the lent memory as it was.\n\n",
        median(archive),
        ratio(archive, hand)
    )
}

/// Holds the functions to each other: what they return, and all the bytes that they are lent.
fn assert_listed_alike(recording: &[u8]) {
    let [archive, others @ ..] = NIGHTS.map(|night| {
        let mut listing = vec![LENT_BYTE; slash::raw::LISTING_BYTES];
        let (status, length) = listed(night, recording, &mut listing);
        (status, length, folded(listing.into_iter().map(u64::from)))
    });
    assert_eq!(others, [archive; 2]);
}

/// A contender as a process: its name, its program and its arguments.
type Process<'a> = (&'a str, PathBuf, Vec<PathBuf>);

fn whole_processes(input: &Path, refused: &Path, script: &Path, night: &str) -> String {
    let hand = std::env::current_exe()
        .expect("this program")
        .with_file_name("hand-night");
    let mut processes: Vec<Process> = vec![
        ("hand-written Rust", hand, Vec::new()),
        (
            "Python script",
            "python3".into(),
            vec![script.to_path_buf()],
        ),
        ("`cat`, the floor", "cat".into(), Vec::new()),
    ];
    if night != "-" {
        processes.insert(0, ("`night`", night.into(), Vec::new()));
    }
    let (_cat, listers) = processes.split_last().expect("`cat`");
    assert_printed_alike(listers, input);
    assert_printed_alike(listers, refused);
    let mut times = vec![Vec::new(); processes.len()];
    for round in 0..PROCESS_ROUNDS {
        for at in in_turn(processes.len(), round) {
            times[at].push(timed(|| run(&processes[at], input, Stdio::null())).0 / 1e6);
        }
    }
    let mut table = format!(
        "Whole processes, from a file to the null device, medians of {PROCESS_ROUNDS} rounds, and how \
         many times as long as `cat` each takes.\n\n| | ms | × `cat` |\n|---|--:|--:|\n"
    );
    let floor = times.last().expect("`cat`");
    for (process, spent) in processes.iter().zip(&times) {
        let ratio = ratio(floor, spent);
        writeln!(
            table,
            "| {} | {:.1} | {ratio:.2} |",
            process.0,
            median(spent)
        )
        .expect("a row");
    }
    table + "\n"
}

fn assert_printed_alike(processes: &[Process], input: &Path) {
    let expected = run(&processes[0], input, Stdio::piped());
    for process in processes {
        let printed = run(process, input, Stdio::piped());
        assert!(printed == expected, "{} lists otherwise", process.0);
    }
}

fn run((name, program, arguments): &Process, input: &Path, output: Stdio) -> Vec<u8> {
    let file = File::open(input).expect("the recording");
    let mut command = Command::new(program);
    let child = command.args(arguments).stdin(file).stdout(output).spawn();
    let ended = child
        .and_then(|child| child.wait_with_output())
        .expect(name);
    assert!(ended.status.success(), "{name}");
    ended.stdout
}

// The head of the table.

fn head() -> String {
    let processor = fs::read_to_string("/proc/cpuinfo").unwrap_or_default();
    let model = processor
        .lines()
        .find_map(|line| line.strip_prefix("model name")?.split_once(": "))
        .map_or("unknown", |(_, model)| model);
    let date = Command::new("date")
        .args(["-u", "+%Y-%m-%d"])
        .output()
        .expect("date");
    format!(
        "# Speed\n\nWritten by `bench/run` on {}, on {model}. Medians of {ROUNDS} rounds in which the \
         contenders take turns, each first in its turn; a ratio is the median of the rounds' ratios, not the ratio of two medians; inputs are random and the same for each, and the results' checksums \
         were equal. The archive is the proved library. The hand-written Rust is `bench/hand`: the same \
         algorithm, optimised, called through the same C interface. GMP's rationals with the continued fraction cut in C are `bench/gmp.c`; \
         Python's Fraction is `bench/python_contender.py`, which twists words as text.\n\n",
        String::from_utf8_lossy(&date.stdout).trim()
    )
}
