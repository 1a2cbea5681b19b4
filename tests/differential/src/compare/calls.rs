//! Calls of the archive beside those of the implementation from the papers, and what differed.

use crate::counts::Counts;
use differential::load;
use differential::night;
use differential::paper::{self, Answer, Stop};
use differential::timings;
use slash::raw;
use std::fmt::Debug;

/// What a lent number holds before the call.
pub const LENT: u64 = 0x7e11_7a1e_7e11_7a1e;

/// What a lent byte of a listing holds before the call.
pub const LENT_BYTE: u8 = 0xa5;

/// Numbers before and after what is lent, which no call may change.
pub const GUARDS: usize = 4;

/// How many bytes after a listing are looked at where the whole rest isn't.
const REST_SEEN: usize = 256;

/// The most quotients that a word has: 2k.
const MOST_QUOTIENTS: u64 = 64;

/// How many differences of a function are printed.
const MOST_PRINTED: u64 = 20;

pub struct Harness {
    pub counts: Counts,
    /// Whether a pointer whose length is 0 is null.
    pub empty_is_null: bool,
    listing: Vec<u8>,
}

/// What a call returns for an answer, and what it stores.
pub fn told(answer: Answer<u64>) -> (u64, u64) {
    match answer {
        Ok(number) => (0, number),
        Err(stop) => (status(stop), LENT),
    }
}

pub fn status(stop: Stop) -> u64 {
    stop.place * 256 + stop.number
}

/// What a call returns and leaves in the number that it is lent.
pub fn stored(call: impl FnOnce(*mut u64) -> u64) -> (u64, u64) {
    let mut number = LENT;
    let returned = call(&mut number);
    (returned, number)
}

/// A list to lend, each number another, with guards around it.
fn guarded(length: usize) -> Vec<u64> {
    (0..(GUARDS + length + GUARDS) as u64)
        .map(|at| LENT ^ at)
        .collect()
}

/// What is lent of a guarded list.
fn lent(list: &mut [u64]) -> &mut [u64] {
    let end = list.len() - GUARDS;
    &mut list[GUARDS..end]
}

/// A list to lend for quotients, with guards around it.
fn quotient_list(length: usize) -> Vec<u32> {
    vec![LENT as u32; GUARDS + length + GUARDS]
}

/// The start of a text, to be printed.
pub fn shown(bytes: &[u8]) -> String {
    String::from_utf8_lossy(&bytes[..bytes.len().min(500)]).into_owned()
}

impl Harness {
    pub fn new() -> Harness {
        let listing = vec![LENT_BYTE; GUARDS + raw::LISTING_BYTES + GUARDS];
        Harness {
            counts: Counts::new(),
            empty_is_null: false,
            listing,
        }
    }

    /// The pointer that a slice is lent by.
    pub fn start<T>(&self, slice: &[T]) -> *const T {
        if self.empty_is_null && slice.is_empty() {
            std::ptr::null()
        } else {
            slice.as_ptr()
        }
    }

    /// The pointer that a slice is lent by to be written.
    pub fn start_mut<T>(&self, slice: &mut [T]) -> *mut T {
        if self.empty_is_null && slice.is_empty() {
            std::ptr::null_mut()
        } else {
            slice.as_mut_ptr()
        }
    }

    /// Counts a case, and prints its input where the archive's answer isn't the papers'.
    pub fn hold<T: PartialEq + Debug>(
        &mut self,
        name: &'static str,
        input: impl Debug,
        archive: T,
        papers: T,
    ) {
        let differs = archive != papers;
        let differences = self.counts.add(name, differs);
        if differs && differences <= MOST_PRINTED {
            println!("{name} {input:?}\n    archive {archive:x?}\n    papers  {papers:x?}");
        }
    }

    // Calls on words.

    pub fn round(&mut self, form: (u64, u64), n: u64, d: u64) {
        let (kind, k) = form;
        let archive = stored(|word| unsafe { raw::slash_round(kind, k, n, d, word) });
        let papers = paper::format(kind, k).and_then(|form| {
            let size = paper::Size::Finite((n.into(), d.into()));
            paper::write(
                form,
                paper::Number {
                    negative: false,
                    marked: false,
                    size,
                },
            )
        });
        self.hold("slash_round", (form, n, d), archive, told(papers));
    }

    pub fn binary(&mut self, form: (u64, u64), code: u64, left: u64, right: u64) {
        let (kind, k) = form;
        let archive = stored(|word| unsafe { raw::slash_binary(kind, k, code, left, right, word) });
        let papers = paper::format(kind, k).and_then(|form| paper::binary(form, code, left, right));
        self.hold(
            "slash_binary",
            (form, code, left, right),
            archive,
            told(papers),
        );
    }

    pub fn compare(&mut self, form: (u64, u64), left: u64, right: u64) {
        let (kind, k) = form;
        let archive = stored(|order| unsafe { raw::slash_compare(kind, k, left, right, order) });
        let papers = paper::format(kind, k).and_then(|form| paper::compare(form, left, right));
        let number = papers.map(|order| order.map_or(3, |order| (order as i8 + 1) as u64));
        self.hold("slash_compare", (form, left, right), archive, told(number));
    }

    pub fn unary(&mut self, form: (u64, u64), code: u64, operand: u64) {
        let (kind, k) = form;
        let archive = stored(|word| unsafe { raw::slash_unary(kind, k, code, operand, word) });
        let papers = paper::format(kind, k).and_then(|form| paper::unary(form, code, operand));
        self.hold("slash_unary", (form, code, operand), archive, told(papers));
    }

    pub fn gcd(&mut self, form: (u64, u64), operand: u64) {
        let (kind, k) = form;
        let archive = stored(|divisor| unsafe { raw::slash_gcd(kind, k, operand, divisor) });
        let papers = paper::format(kind, k).and_then(|form| paper::gcd(form, operand));
        self.hold("slash_gcd", (form, operand), archive, told(papers));
    }

    pub fn convert(&mut self, form: (u64, u64), target: (u64, u64), operand: u64) {
        let ((kind, k), (to_kind, to_k)) = (form, target);
        let archive =
            stored(|word| unsafe { raw::slash_convert(kind, k, to_kind, to_k, operand, word) });
        let papers = paper::format(kind, k)
            .and_then(|source| paper::convert(source, paper::format(to_kind, to_k)?, operand));
        self.hold(
            "slash_convert",
            (form, target, operand),
            archive,
            told(papers),
        );
    }

    /// What the archive returns and stores for a list of quotients of this length, and that list with
    /// its guards.
    fn archive_quotients(
        &self,
        (kind, k): (u64, u64),
        operand: u64,
        length: usize,
    ) -> ((u64, u64), Vec<u32>) {
        let mut list = quotient_list(length);
        let start = self.start_mut(&mut list[GUARDS..GUARDS + length]);
        let told =
            stored(|count| unsafe { raw::slash_quotients(kind, k, operand, start, length, count) });
        (told, list)
    }

    pub fn quotients(&mut self, form: (u64, u64), operand: u64, length: usize) {
        let (kind, k) = form;
        let archive = self.archive_quotients(form, operand, length);
        let mut list = quotient_list(length);
        let lent = &mut list[GUARDS..GUARDS + length];
        let papers = paper::format(kind, k).and_then(|form| paper::quotients(form, operand, lent));
        self.hold(
            "slash_quotients",
            (form, operand, length),
            archive,
            (told(papers), list),
        );
    }

    /// Holds the count alone to the papers, and then lists of about that length to the count.
    pub fn quotient_count(&mut self, form: (u64, u64), operand: u64) {
        let (kind, k) = form;
        let archive = stored(|count| unsafe { raw::slash_quotient_count(kind, k, operand, count) });
        let papers = paper::format(kind, k).and_then(|form| paper::quotient_count(form, operand));
        self.hold(
            "slash_quotient_count",
            (form, operand),
            archive,
            told(papers),
        );
        if let (0, count) = archive {
            // A larger count differs from the papers', and no list need be so long.
            self.lists_about(form, operand, count.min(MOST_QUOTIENTS) as usize);
        }
    }

    /// CR 6 on the archive's own count: a list one place shorter gets stop 7 and stays as it was;
    /// one as long, or a place longer, gets so many quotients and keeps its rest.
    fn lists_about(&mut self, form: (u64, u64), operand: u64, count: usize) {
        for length in count.saturating_sub(1)..=count + 1 {
            let (archive, list) = self.archive_quotients(form, operand, length);
            let (expected, changed) = if length < count {
                ((7, LENT), 0)
            } else {
                ((0, count as u64), count)
            };
            let kept = [&list[..GUARDS], &list[GUARDS + changed..]].concat();
            let lent = vec![LENT as u32; kept.len()];
            self.hold(
                "slash_quotients",
                (form, operand, length, count),
                (archive, kept),
                (expected, lent),
            );
        }
    }

    pub fn twist(&mut self, form: (u64, u64), word: u64) {
        let (kind, k) = form;
        let archive = stored(|twisted| unsafe { raw::slash_twist(kind, k, word, twisted) });
        let papers = paper::format(kind, k).and_then(|form| paper::twist(form, word));
        self.hold("slash_twist", (form, word), archive, told(papers));
    }

    pub fn untwist(&mut self, form: (u64, u64), twisted: u64) {
        let (kind, k) = form;
        let archive = stored(|word| unsafe { raw::slash_untwist(kind, k, twisted, word) });
        let papers = paper::format(kind, k).and_then(|form| paper::untwist(form, twisted));
        self.hold("slash_untwist", (form, twisted), archive, told(papers));
    }

    // Calls on vectors.

    /// Holds a vector form to the papers: what it returns and what it leaves in a lent result.
    fn hold_each(
        &mut self,
        name: &'static str,
        input: impl Debug,
        length: usize,
        archive: impl FnOnce(*mut u64, usize) -> u64,
        papers: impl FnOnce(&mut [u64]) -> Answer<()>,
    ) {
        let mut out = guarded(length);
        let mut papers_out = out.clone();
        let lent_out = lent(&mut out);
        let returned = archive(self.start_mut(lent_out), length);
        let expected = papers(lent(&mut papers_out)).map_or_else(status, |()| 0);
        self.hold(name, input, (returned, out), (expected, papers_out));
    }

    pub fn binary_each(
        &mut self,
        form: (u64, u64),
        code: u64,
        left: &[u64],
        right: &[u64],
        length: usize,
    ) {
        let (kind, k) = form;
        let (l, r) = (self.start(left), self.start(right));
        self.hold_each(
            "slash_binary_each",
            (form, code, left, right, length),
            length,
            |out, count| unsafe {
                raw::slash_binary_each(kind, k, code, l, left.len(), r, right.len(), out, count)
            },
            |out| paper::binary_each(form, code, left, right, out),
        );
    }

    pub fn unary_each(&mut self, form: (u64, u64), code: u64, operand: &[u64], length: usize) {
        let (kind, k) = form;
        let start = self.start(operand);
        self.hold_each(
            "slash_unary_each",
            (form, code, operand, length),
            length,
            |out, count| unsafe {
                raw::slash_unary_each(kind, k, code, start, operand.len(), out, count)
            },
            |out| paper::unary_each(form, code, operand, out),
        );
    }

    pub fn convert_each(
        &mut self,
        form: (u64, u64),
        target: (u64, u64),
        operand: &[u64],
        length: usize,
    ) {
        let ((kind, k), (to_kind, to_k)) = (form, target);
        let (words, count) = (self.start(operand), operand.len());
        self.hold_each(
            "slash_convert_each",
            (form, target, operand, length),
            length,
            |out, out_count| unsafe {
                raw::slash_convert_each(kind, k, to_kind, to_k, words, count, out, out_count)
            },
            |out| paper::convert_each(form, target, operand, out),
        );
    }

    pub fn twist_each(&mut self, form: (u64, u64), operand: &[u64], length: usize) {
        let (kind, k) = form;
        let start = self.start(operand);
        self.hold_each(
            "slash_twist_each",
            (form, operand, length),
            length,
            |out, count| unsafe {
                raw::slash_twist_each(kind, k, start, operand.len(), out, count)
            },
            |out| paper::twist_each(form, operand, out),
        );
    }

    pub fn untwist_each(&mut self, form: (u64, u64), operand: &[u64], length: usize) {
        let (kind, k) = form;
        let start = self.start(operand);
        self.hold_each(
            "slash_untwist_each",
            (form, operand, length),
            length,
            |out, count| unsafe {
                raw::slash_untwist_each(kind, k, start, operand.len(), out, count)
            },
            |out| paper::untwist_each(form, operand, out),
        );
    }

    pub fn timings(&mut self, records: &[u8], length: usize) {
        let start = self.start(records);
        self.hold_each(
            "slash_timings",
            (records, length),
            length,
            |words, count| unsafe { raw::slash_timings(start, records.len(), words, count) },
            |words| timings::timings(records, words),
        );
    }

    // Calls on breaths and recordings.

    pub fn breath(&mut self, rate: u64, marks: [u32; 3]) {
        let [onset, peak, next] = marks;
        let archive = stored(|word| unsafe { raw::slash_breath(rate, onset, peak, next, word) });
        let papers = night::breath(rate, onset, peak, next);
        self.hold("slash_breath", (rate, marks), archive, told(papers));
    }

    /// Holds the listing and what lies around it, the whole rest of what is lent if asked. All that
    /// a refused recording's call is lent is rest.
    pub fn night(&mut self, recording: &[u8], whole_rest: bool) {
        let mut lent = std::mem::take(&mut self.listing);
        let start = lent[GUARDS..].as_mut_ptr();
        let (bytes, count) = (self.start(recording), recording.len());
        let archive = stored(|length| unsafe { raw::slash_night(bytes, count, start, length) });
        let papers = night::listing(recording);
        let expected = told(
            papers
                .as_ref()
                .map(|text| text.len() as u64)
                .map_err(|&stop| stop),
        );
        let papers = papers.unwrap_or_default();
        let rest = GUARDS + papers.len();
        let seen = if whole_rest {
            lent.len()
        } else {
            lent.len().min(rest + REST_SEEN)
        };
        let around = [&lent[..GUARDS], &lent[rest..seen]];
        let kept = around
            .iter()
            .all(|bytes| bytes.iter().all(|&byte| byte == LENT_BYTE));
        let same = lent[GUARDS..rest] == papers;
        self.hold(
            "slash_night",
            shown(recording),
            (archive, same, kept, shown(&lent[GUARDS..rest])),
            (expected, true, true, shown(&papers)),
        );
        let written = if kept && same { rest } else { lent.len() };
        lent[..written].fill(LENT_BYTE);
        self.listing = lent;
    }

    /// What the archive returns for a recording, and the listing that it stores, nothing where it stops.
    pub fn listed(&mut self, recording: &[u8]) -> (u64, Vec<u8>) {
        let start = self.listing[GUARDS..].as_mut_ptr();
        let (bytes, count) = (self.start(recording), recording.len());
        let (returned, length) =
            stored(|length| unsafe { raw::slash_night(bytes, count, start, length) });
        let length = if returned == 0 { length as usize } else { 0 };
        let lent = &mut self.listing[GUARDS..GUARDS + length];
        let listing = lent.to_vec();
        lent.fill(LENT_BYTE);
        (returned, listing)
    }

    // Calls on listings.

    /// Holds all that a call is lent: the count, the total, and two lists of these lengths.
    pub fn load(&mut self, text: &[u8], numbers_length: usize, words_length: usize) {
        let (mut numbers, mut words) = (guarded(numbers_length), guarded(words_length));
        let (mut papers_numbers, mut papers_words) = (numbers.clone(), words.clone());
        let mut count = LENT;
        let (start, length) = (self.start(text), text.len());
        let (n, w) = (
            self.start_mut(lent(&mut numbers)),
            self.start_mut(lent(&mut words)),
        );
        let (returned, total) = stored(|total| unsafe {
            let count = &mut count;
            raw::slash_load(
                start,
                length,
                n,
                numbers_length,
                w,
                words_length,
                count,
                total,
            )
        });
        let papers = load::load(text, lent(&mut papers_numbers), lent(&mut papers_words));
        let expected = match papers {
            Ok((count, total)) => (0, count, total),
            Err(stop) => (status(stop), LENT, LENT),
        };
        let [number, papers_number] = first_difference(&numbers, &papers_numbers);
        let [word, papers_word] = first_difference(&words, &papers_words);
        self.hold(
            "slash_load",
            (shown(text), numbers_length, words_length),
            ((returned, count, total), number, word),
            (expected, papers_number, papers_word),
        );
    }
}

/// What each of two guarded lists has at the first place where they differ, and that place, guards counted.
fn first_difference(list: &[u64], other: &[u64]) -> [Option<(usize, u64)>; 2] {
    let place = (0..list.len()).find(|&at| list[at] != other[at]);
    [list, other].map(|list| place.map(|at| (at, list[at])))
}
