//! Each contender runs a row's inputs and stores its results.

use std::hint::black_box;

/// What a row asks for; a vector's operations apply to all inputs by one call.
#[derive(Clone, Copy, PartialEq)]
pub enum Operation {
    Read,
    Write,
    Round,
    Breath,
    Binary(u64),
    Compare,
    Unary(u64),
    Gcd,
    Quotients,
    QuotientCount,
    Convert,
    Twist,
    Untwist,
    BinaryEach(u64),
    UnaryEach(u64),
    ConvertEach,
    TwistEach,
    UntwistEach,
}

use Operation::*;

impl Operation {
    /// Whether there is a form with tables, which takes part in GMP's place. (To rearrange a word's bits is
    /// nothing that GMP's rationals do.)
    pub fn has_tables(self) -> bool {
        matches!(
            self,
            QuotientCount | Twist | Untwist | TwistEach | UntwistEach
        )
    }
}

/// A row of the table: an operation in a format, and its inputs.
pub struct Row {
    pub name: String,
    pub operation: Operation,
    pub form: (u64, u64),
    pub target: (u64, u64),
    pub inputs: Vec<(u64, u64)>,
    pub left: Vec<u64>,
    pub right: Vec<u64>,
}

/// The checksum of results: times 31 plus the next, modulo 2^64.
pub fn folded(results: impl Iterator<Item = u64>) -> u64 {
    results.fold(0, |h, result| h.wrapping_mul(31).wrapping_add(result))
}

/// Stores the result of each pair of inputs.
fn each(inputs: &[(u64, u64)], out: &mut [u64], mut call: impl FnMut(u64, u64) -> u64) {
    for (&(a, b), out) in inputs.iter().zip(out) {
        *out = call(a, b);
    }
}

/// The checksum of the quotients at the start of a list, their count first.
fn folded_list(list: &[u32], count: u64) -> u64 {
    let quotients = list[..count as usize]
        .iter()
        .map(|&quotient| quotient.into());
    folded(std::iter::once(count).chain(quotients))
}

/// The inputs of a breath: its rate and onset, then its peak and next onset, two in a number.
pub fn packed(rate: u32, [onset, peak, next]: [u32; 3]) -> (u64, u64) {
    let pair = |high: u32, low: u32| u64::from(high) << 32 | u64::from(low);
    (pair(rate, onset), pair(peak, next))
}

/// The rate of packed inputs, then the marks.
fn unpacked(a: u64, b: u64) -> (u64, [u32; 3]) {
    (a >> 32, [a as u32, (b >> 32) as u32, b as u32])
}

/// What a word says in one number: sign, mark, and the parts, which have 31 bits at most; the class, which the parts
/// tell, is added.
fn packed_value(sign: u64, class: u64, numerator: u64, denominator: u64, mark: u64) -> u64 {
    (sign << 63 | mark << 62 | numerator << 31 | denominator).wrapping_add(class)
}

/// The inputs of a fraction that is written: its sign, mark and numerator, then its denominator.
pub fn packed_fraction(sign: u64, mark: u64, (numerator, denominator): (u64, u64)) -> (u64, u64) {
    (sign << 63 | mark << 62 | numerator, denominator)
}

/// The sign, the mark and the numerator of packed inputs.
fn unpacked_fraction(a: u64) -> (u64, u64, u64) {
    (a >> 63, a >> 62 & 1, a & ((1 << 62) - 1))
}

/// The class of fractions.
const FRACTION: u64 = 1;

/// A contender behind the C interface, so that what calls cost is the same for each.
macro_rules! through_c {
    ($(#[$about:meta])* $name:ident, $calls:path) => {
        $(#[$about])*
        pub fn $name(row: &Row, out: &mut [u64]) {
            use $calls as calls;
            let ((kind, k), (to_kind, to_k)) = (black_box(row.form), black_box(row.target));
            let count = out.len();
            let (inputs, left, right) = (
                &row.inputs[..count],
                &row.left[..count],
                &row.right[..count],
            );
            let mut word = 0;
            let mut list = [0; 64];
            let mut value = calls::Value::default();
            let (l, r, o) = (left.as_ptr(), right.as_ptr(), out.as_mut_ptr());
            // SAFETY: the pointers are those of live numbers and vectors, with their lengths.
            let status = unsafe {
                match row.operation {
                    Read => {
                        return each(inputs, out, |a, _| {
                            calls::slash_read(kind, k, a, &mut value);
                            let calls::Value { sign, value_class, numerator, denominator, mark } = value;
                            packed_value(sign, value_class, numerator, denominator, mark)
                        })
                    }
                    Write => {
                        return each(inputs, out, |a, denominator| {
                            let (sign, mark, numerator) = unpacked_fraction(a);
                            value = calls::Value { sign, value_class: FRACTION, numerator, denominator, mark };
                            calls::slash_write(kind, k, &value, &mut word);
                            word
                        })
                    }
                    Round => {
                        return each(inputs, out, |n, d| {
                            calls::slash_round(kind, k, n, d, &mut word);
                            word
                        })
                    }
                    Breath => {
                        return each(inputs, out, |a, b| {
                            let (rate, [onset, peak, next]) = unpacked(a, b);
                            calls::slash_breath(rate, onset, peak, next, &mut word);
                            word
                        })
                    }
                    Binary(code) => {
                        return each(inputs, out, |a, b| {
                            calls::slash_binary(kind, k, code, a, b, &mut word);
                            word
                        })
                    }
                    Compare => {
                        return each(inputs, out, |a, b| {
                            calls::slash_compare(kind, k, a, b, &mut word);
                            word
                        })
                    }
                    Unary(code) => {
                        return each(inputs, out, |a, _| {
                            calls::slash_unary(kind, k, code, a, &mut word);
                            word
                        })
                    }
                    Gcd => {
                        return each(inputs, out, |a, _| {
                            calls::slash_gcd(kind, k, a, &mut word);
                            word
                        })
                    }
                    Quotients => {
                        return each(inputs, out, |a, _| {
                            calls::slash_quotients(kind, k, a, list.as_mut_ptr(), list.len(), &mut word);
                            folded_list(&list, word)
                        })
                    }
                    QuotientCount => {
                        return each(inputs, out, |a, _| {
                            calls::slash_quotient_count(kind, k, a, &mut word);
                            word
                        })
                    }
                    Convert => {
                        return each(inputs, out, |a, _| {
                            calls::slash_convert(kind, k, to_kind, to_k, a, &mut word);
                            word
                        })
                    }
                    Twist => {
                        return each(inputs, out, |a, _| {
                            calls::slash_twist(kind, k, a, &mut word);
                            word
                        })
                    }
                    Untwist => {
                        return each(inputs, out, |a, _| {
                            calls::slash_untwist(kind, k, a, &mut word);
                            word
                        })
                    }
                    BinaryEach(code) => calls::slash_binary_each(kind, k, code, l, count, r, count, o, count),
                    UnaryEach(code) => calls::slash_unary_each(kind, k, code, l, count, o, count),
                    ConvertEach => calls::slash_convert_each(kind, k, to_kind, to_k, l, count, o, count),
                    TwistEach => calls::slash_twist_each(kind, k, l, count, o, count),
                    UntwistEach => calls::slash_untwist_each(kind, k, l, count, o, count),
                }
            };
            assert_eq!(status, 0);
        }
    };
}

through_c!(
    /// The archive.
    archive,
    slash::raw
);

through_c!(
    /// The hand-written Rust.
    hand,
    handwritten::c
);

through_c!(
    /// The hand-written Rust, twisting with tables.
    tables,
    handwritten::c::tables
);

through_c!(
    /// The hand-written Rust, with halving where a breath's ratio is held.
    halving,
    handwritten::c::halving
);

extern "C" {
    fn gmp_start();
    fn gmp_read(kind: u64, k: u64, word: u64, value: *mut [u64; 5]);
    fn gmp_write(kind: u64, k: u64, sign: u64, mark: u64, n: u64, d: u64) -> u64;
    fn gmp_round(kind: u64, k: u64, n: u64, d: u64) -> u64;
    fn gmp_breath(rate: u64, onset: u32, peak: u32, next: u32) -> u64;
    fn gmp_binary(kind: u64, k: u64, code: u64, left: u64, right: u64) -> u64;
    fn gmp_compare(kind: u64, k: u64, left: u64, right: u64) -> u64;
    fn gmp_unary(kind: u64, k: u64, code: u64, operand: u64) -> u64;
    fn gmp_common_divisor(kind: u64, k: u64, operand: u64) -> u64;
    fn gmp_convert(kind: u64, k: u64, to_kind: u64, to_k: u64, operand: u64) -> u64;
    fn gmp_quotients(kind: u64, k: u64, operand: u64, list: *mut u32) -> u64;
}

/// A function that lists a recording through the C interface.
pub type Night = unsafe extern "C" fn(*const u8, usize, *mut u8, *mut u64) -> u64;

/// The archive's, then the hand-written one, then the one with halving.
pub const NIGHTS: [Night; 3] = [
    slash::raw::slash_night,
    handwritten::c::slash_night,
    handwritten::c::halving::slash_night,
];

/// What the function returns for a recording, and the length that it stores, 0 where it stores none.
pub fn listed(night: Night, recording: &[u8], listing: &mut [u8]) -> (u64, usize) {
    assert!(listing.len() >= slash::raw::LISTING_BYTES);
    let mut length = 0;
    let (start, count) = (recording.as_ptr(), recording.len());
    // SAFETY: the pointers are those of live bytes, with their lengths, and of a live number.
    let status = unsafe { night(start, count, listing.as_mut_ptr(), &mut length) };
    (status, length as usize)
}

/// Lists a recording in pieces: buffers of so many bytes of it and of text. Each text goes to `take`. Gives what
/// the last call returned.
pub type Pieces = fn(recording: &[u8], size: usize, take: &mut dyn FnMut(&[u8])) -> u64;

/// A caller of pieces through the C interface, who has the whole recording at hand and copies nothing of it.
macro_rules! pieces_through_c {
    ($name:ident, $calls:path) => {
        fn $name(recording: &[u8], size: usize, take: &mut dyn FnMut(&[u8])) -> u64 {
            use $calls as calls;
            let (mut night, mut piece) = (calls::NightState::default(), calls::Piece::default());
            let (mut rest, mut text) = (recording, vec![0; size]);
            while piece.ended == 0 {
                let count = rest.len().min(size);
                let last = u64::from(count == rest.len());
                let (bytes, lent) = (rest.as_ptr(), text.as_mut_ptr());
                // SAFETY: the pointers are those of live bytes, with their lengths, and of live structs.
                let status = unsafe {
                    calls::slash_night_piece(&mut night, bytes, count, last, lent, size, &mut piece)
                };
                if status != 0 {
                    return status;
                }
                take(&text[..piece.length as usize]);
                rest = &rest[piece.used as usize..];
            }
            0
        }
    };
}

pieces_through_c!(archive_pieces, slash::raw);
pieces_through_c!(hand_pieces, handwritten::c);

/// The archive's, then the hand-written one.
pub const PIECES: [Pieces; 2] = [archive_pieces, hand_pieces];

/// A function that reads a listing back through the C interface.
pub type Load = unsafe extern "C" fn(
    *const u8,
    usize,
    *mut u64,
    usize,
    *mut u64,
    usize,
    *mut u64,
    *mut u64,
) -> u64;

/// The archive's, then the hand-written one.
pub const LOADS: [Load; 2] = [slash::raw::slash_load, handwritten::c::slash_load];

/// What a listing is read back into: lists of breath numbers and words, the count, the total's word.
#[derive(Debug, PartialEq)]
pub struct Lent {
    pub numbers: Vec<u64>,
    pub words: Vec<u64>,
    pub count: u64,
    pub total: u64,
}

/// What the function returns for a listing.
pub fn loaded(load: Load, listing: &[u8], lent: &mut Lent) -> u64 {
    let (start, length) = (listing.as_ptr(), listing.len());
    let (numbers, words) = (&mut lent.numbers, &mut lent.words);
    // SAFETY: the pointers are those of live bytes and lists, with their lengths, and of live numbers.
    unsafe {
        load(
            start,
            length,
            numbers.as_mut_ptr(),
            numbers.len(),
            words.as_mut_ptr(),
            words.len(),
            &mut lent.count,
            &mut lent.total,
        )
    }
}

/// A function that rounds records of timings through the C interface.
pub type Timings = unsafe extern "C" fn(*const u8, usize, *mut u64, usize) -> u64;

/// The archive's, then the hand-written one in lanes, then the one that goes record by record.
pub const TIMINGS: [Timings; 3] = [
    slash::raw::slash_timings,
    handwritten::c::slash_timings,
    handwritten::c::by_record::slash_timings,
];

/// What the function returns for records.
pub fn rounded(timings: Timings, records: &[u8], words: &mut [u64]) -> u64 {
    let (start, length) = (records.as_ptr(), records.len());
    // SAFETY: the pointers are those of live bytes and words, with their lengths.
    unsafe { timings(start, length, words.as_mut_ptr(), words.len()) }
}

/// Makes GMP's numbers, once.
pub fn start_gmp() {
    // SAFETY: called once, from one thread.
    unsafe { gmp_start() }
}

/// GMP's rationals, called from C; a vector is a loop over its places.
pub fn gmp(row: &Row, out: &mut [u64]) {
    let ((kind, k), (to_kind, to_k)) = (black_box(row.form), black_box(row.target));
    let inputs = &row.inputs[..out.len()];
    let (mut list, mut value) = ([0; 64], [0; 5]);
    // SAFETY: one thread, after start_gmp; the list is as long as the most quotients.
    unsafe {
        match row.operation {
            Read => each(inputs, out, |a, _| {
                gmp_read(kind, k, a, &mut value);
                let [sign, class, numerator, denominator, mark] = value;
                packed_value(sign, class, numerator, denominator, mark)
            }),
            Write => each(inputs, out, |a, denominator| {
                let (sign, mark, numerator) = unpacked_fraction(a);
                gmp_write(kind, k, sign, mark, numerator, denominator)
            }),
            Round => each(inputs, out, |n, d| gmp_round(kind, k, n, d)),
            Breath => each(inputs, out, |a, b| {
                let (rate, [onset, peak, next]) = unpacked(a, b);
                gmp_breath(rate, onset, peak, next)
            }),
            Binary(code) | BinaryEach(code) => {
                each(inputs, out, |a, b| gmp_binary(kind, k, code, a, b))
            }
            Compare => each(inputs, out, |a, b| gmp_compare(kind, k, a, b)),
            Unary(code) | UnaryEach(code) => each(inputs, out, |a, _| gmp_unary(kind, k, code, a)),
            Gcd => each(inputs, out, |a, _| gmp_common_divisor(kind, k, a)),
            Quotients => each(inputs, out, |a, _| {
                let count = gmp_quotients(kind, k, a, list.as_mut_ptr());
                folded_list(&list, count)
            }),
            Convert | ConvertEach => {
                each(inputs, out, |a, _| gmp_convert(kind, k, to_kind, to_k, a))
            }
            QuotientCount | Twist | Untwist | TwistEach | UntwistEach => {
                unreachable!("GMP takes no part")
            }
        }
    }
}

/// The name and the code by which Python's contender knows an operation.
pub fn python_name(operation: Operation) -> (&'static str, u64) {
    match operation {
        Read => ("read", 0),
        Write => ("write", 0),
        Round => ("round", 0),
        Breath => ("breath", 0),
        Binary(code) | BinaryEach(code) => ("binary", code),
        Compare => ("compare", 0),
        Unary(code) | UnaryEach(code) => ("unary", code),
        Gcd => ("gcd", 0),
        Quotients => ("quotients", 0),
        QuotientCount => ("quotient_count", 0),
        Convert | ConvertEach => ("convert", 0),
        Twist | TwistEach => ("twist", 0),
        Untwist | UntwistEach => ("untwist", 0),
    }
}
