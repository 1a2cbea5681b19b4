//! Answers the request lines of the second program, or with `night` its recipes, from standard input.

use differential::load;
use differential::night::{self, Breath};
use differential::paper::{self, Answer, Format, Number, Size, Stop};
use differential::timings;
use std::cmp::Ordering;
use std::io::{self, BufWriter, Read, Write};

fn main() -> io::Result<()> {
    let mut input = String::new();
    io::stdin().read_to_string(&mut input)?;
    let mut output = BufWriter::new(io::stdout().lock());
    let recipes = std::env::args().nth(1).as_deref() == Some("night");
    for line in input.lines() {
        if recipes {
            output.write_all(&recipe_answer(line))?;
        } else {
            output.write_all(request_answer(line).as_bytes())?;
        }
        output.write_all(b"\n")?;
    }
    output.flush()
}

// Requests.

fn request_answer(line: &str) -> String {
    let mut words = line.split(' ');
    let letter = words.next().unwrap_or("");
    let numbers: Vec<u64> = words.map(|word| word.parse().expect("a number")).collect();
    answer(letter, &numbers).unwrap_or_else(stop_text)
}

fn stop_text(stop: Stop) -> String {
    format!("stop {} {}", stop.number, stop.place)
}

fn answer(letter: &str, numbers: &[u64]) -> Answer<String> {
    match (letter, numbers) {
        ("f", &[kind, k]) => Ok(made_answer(paper::format(kind, k))),
        ("v", &[kind, k, to_kind, to_k, word]) => {
            let (source, target) = (paper::format(kind, k)?, paper::format(to_kind, to_k)?);
            hexadecimal(paper::convert(source, target, word))
        }
        ("V", &[kind, k, to_kind, to_k]) => {
            let (source, target) = (paper::format(kind, k)?, paper::format(to_kind, to_k)?);
            Ok(each(source, |word| {
                hexadecimal(paper::convert(source, target, word))
            }))
        }
        ("h", &[rate, onset, peak, next]) => breath_answer(rate, [onset, peak, next]),
        ("a", &[rate, in_sum, whole_sum, onset, peak, next]) => {
            added_answer(rate, (in_sum, whole_sum), [onset, peak, next])
        }
        ("i", &[length, _, ref rest @ ..]) => {
            let (bytes, out) = rest.split_at(length as usize);
            Ok(imported_answer(bytes, out))
        }
        ("q", &[kind, k, length, word]) => Ok(quotients_answer(kind, k, length, word)),
        ("x", &[kind, k, code, left, right, _, ref words @ ..]) => {
            let (left, rest) = words.split_at(left as usize);
            let (right, out) = rest.split_at(right as usize);
            Ok(vector_answer(
                paper::check_operands((kind, k), &[left, right]),
                |out| paper::binary_each((kind, k), code, left, right, out),
                out,
            ))
        }
        ("y", &[kind, k, code, length, _, ref words @ ..]) => {
            let (operand, out) = words.split_at(length as usize);
            Ok(vector_answer(
                paper::check_operands((kind, k), &[operand]),
                |out| paper::unary_each((kind, k), code, operand, out),
                out,
            ))
        }
        ("z", &[kind, k, to_kind, to_k, length, _, ref words @ ..]) => {
            let (operand, out) = words.split_at(length as usize);
            Ok(vector_answer(
                paper::check_operands((kind, k), &[operand]),
                |out| paper::convert_each((kind, k), (to_kind, to_k), operand, out),
                out,
            ))
        }
        ("e", &[kind, k, way, length, _, ref words @ ..]) => {
            let (operand, out) = words.split_at(length as usize);
            Ok(vector_answer(
                paper::check_operands((kind, k), &[operand]),
                |out| twisted_each((kind, k), way, operand, out),
                out,
            ))
        }
        (_, &[kind, k, ref rest @ ..]) => format_answer(letter, paper::format(kind, k)?, rest),
        _ => panic!("unknown request {letter} {numbers:?}"),
    }
}

/// The answers of the requests that begin with one format.
fn format_answer(letter: &str, form: Format, numbers: &[u64]) -> Answer<String> {
    match (letter, numbers) {
        ("r", &[word]) => {
            let text = number_text(paper::read(form, word)?);
            let fields = paper::fields(form, word);
            Ok(joined(
                std::iter::once(text).chain(fields.iter().map(u128::to_string)),
            ))
        }
        ("w", &[class, sign, n, d, mark]) => {
            let size = [
                Size::Finite((n.into(), d.into())),
                Size::Finite((0, 1)),
                Size::Infinite,
                Size::NotANumber,
            ][class as usize];
            hexadecimal(paper::write(
                form,
                Number {
                    negative: sign == 1,
                    marked: mark == 1,
                    size,
                },
            ))
        }
        ("n", &[_, 0]) => Err(Stop {
            number: 6,
            place: 0,
        }),
        ("n", &[n, d]) => {
            let (n, d) = (n.into(), d.into());
            let (r, s) = paper::rounded(form, n, d);
            Ok(format!("{r}/{s} {}", u8::from(s * n != r * d)))
        }
        ("b", &[code, left, right]) => hexadecimal(paper::binary(form, code, left, right)),
        ("B", &[code, left]) => Ok(each(form, |right| {
            hexadecimal(paper::binary(form, code, left, right))
        })),
        ("o", &[left, right]) => {
            paper::compare(form, left, right).map(|order| order_texts(order).0.to_string())
        }
        ("O", &[left]) => Ok((0..1 << form.width())
            .map(|right| {
                paper::compare(form, left, right).map_or('!', |order| order_texts(order).1)
            })
            .collect()),
        ("u", &[code, word]) => hexadecimal(paper::unary(form, code, word)),
        ("U", &[code]) => Ok(each(form, |word| {
            hexadecimal(paper::unary(form, code, word))
        })),
        ("t", &[way, word]) => hexadecimal(twisted(form, way, word)),
        ("T", &[way]) => Ok(each(form, |word| hexadecimal(twisted(form, way, word)))),
        ("g", &[word]) => paper::gcd(form, word).map(|divisor| divisor.to_string()),
        ("G", []) => Ok(each(form, |word| {
            paper::gcd(form, word).map(|divisor| divisor.to_string())
        })),
        ("c", &[word]) => paper::quotient_count(form, word).map(|count| count.to_string()),
        ("C", []) => Ok(each(form, |word| {
            paper::quotient_count(form, word).map(|count| count.to_string())
        })),
        _ => panic!("unknown request {letter} {numbers:?}"),
    }
}

/// The durations and the word of the breath between three marks.
fn breath_answer(rate: u64, marks: [u64; 3]) -> Answer<String> {
    night::check_rate(rate)?;
    let breath = breath_between(marks);
    let Breath { inward, whole } = breath;
    Ok(match breath.word(rate) {
        night::VOID => format!("{inward} {whole} void"),
        word => format!("{inward} {whole} {word:x}"),
    })
}

/// Sums of in and whole with the breath between three marks.
fn added_answer(rate: u64, sums: (u64, u64), marks: [u64; 3]) -> Answer<String> {
    night::check_rate(rate)?;
    Ok(match breath_between(marks).added(rate, sums) {
        Some((in_sum, whole_sum)) => format!("{in_sum} {whole_sum}"),
        None => "full".to_string(),
    })
}

fn breath_between(marks: [u64; 3]) -> Breath {
    let [onset, peak, next] = marks.map(|mark| u32::try_from(mark).expect("a tick mark"));
    Breath::between(onset, peak, next)
}

/// The word that a way gives: 1 twists, 2 untwists.
fn twisted(form: Format, way: u64, word: u64) -> Answer<u64> {
    match way {
        1 => paper::twist(form, word),
        2 => paper::untwist(form, word),
        _ => panic!("unknown way {way}"),
    }
}

fn twisted_each(form: (u64, u64), way: u64, operand: &[u64], out: &mut [u64]) -> Answer<()> {
    match way {
        1 => paper::twist_each(form, operand, out),
        2 => paper::untwist_each(form, operand, out),
        _ => panic!("unknown way {way}"),
    }
}

/// What the check of a format tells, then what making it does.
fn made_answer(made: Answer<Format>) -> String {
    let parts = |form: Format| {
        let largest = form.largest_part();
        format!("{} {largest} {largest}", form.width())
    };
    let checked = told_text(made.map(|_| ()));
    format!("{checked} {}", made.map_or_else(stop_text, parts))
}

fn told_text(told: Answer<()>) -> String {
    told.map_or_else(stop_text, |()| "done".to_string())
}

fn hexadecimal(word: Answer<u64>) -> Answer<String> {
    word.map(|word| format!("{word:x}"))
}

fn joined(texts: impl Iterator<Item = String>) -> String {
    texts.collect::<Vec<_>>().join(" ")
}

/// What is answered for each word of the format, a stop as !S.
fn each(form: Format, operation: impl Fn(u64) -> Answer<String>) -> String {
    joined(
        (0..1 << form.width())
            .map(|word| operation(word).unwrap_or_else(|stop| format!("!{}", stop.number))),
    )
}

fn number_text(number: Number) -> String {
    let mark = u8::from(number.marked);
    let sign = if number.negative { '-' } else { '+' };
    match number.size {
        Size::NotANumber => format!("nan {mark}"),
        Size::Infinite => format!("{sign} infinity {mark}"),
        Size::Finite((0, _)) => format!("{sign} zero {mark}"),
        Size::Finite((n, d)) => format!("{sign} {n}/{d} {mark}"),
    }
}

fn order_texts(order: Option<Ordering>) -> (&'static str, char) {
    match order {
        Some(Ordering::Less) => ("below", '<'),
        Some(Ordering::Equal) => ("equal", '='),
        Some(Ordering::Greater) => ("above", '>'),
        None => ("unordered", '?'),
    }
}

fn quotients_answer(kind: u64, k: u64, length: u64, word: u64) -> String {
    let mut list = vec![4242; length as usize];
    let count = paper::format(kind, k).and_then(|form| paper::quotients(form, word, &mut list));
    let first = count.map_or_else(stop_text, |count| count.to_string());
    joined(std::iter::once(first).chain(list.iter().map(u32::to_string)))
}

/// What is answered for a vector form: what the check of its operands told, what it told itself, and
/// the lent result after it.
fn vector_answer(
    checked: Answer<()>,
    operation: impl Fn(&mut [u64]) -> Answer<()>,
    lent: &[u64],
) -> String {
    let mut out = lent.to_vec();
    let told = [told_text(checked), told_text(operation(&mut out))];
    lent_text(&told, &out)
}

/// What importing records tells, and the words behind it.
fn imported_answer(bytes: &[u64], lent: &[u64]) -> String {
    let byte = |&number: &u64| u8::try_from(number).expect("a byte");
    let records: Vec<u8> = bytes.iter().map(byte).collect();
    let mut out = lent.to_vec();
    let told = told_text(timings::timings(&records, &mut out));
    lent_text(&[told], &out)
}

fn lent_text(told: &[String], out: &[u64]) -> String {
    let words = out.iter().map(|word| format!("{word:x}"));
    joined(told.iter().cloned().chain(words))
}

// Recipes.

const LONGEST_SHOWN: usize = 2000;
const END_SHOWN: usize = 64;

fn recipe_answer(line: &str) -> Vec<u8> {
    match line.as_bytes().first() {
        Some(b'#') => line.as_bytes().to_vec(),
        Some(b'L') => loading_answer(&format!("0:{}", &line[1..])),
        Some(b'M') => loading_answer(&line[1..]),
        Some(b'P') => printing_answer(&line[1..]),
        _ => shown(night::printed(&made(line))),
    }
}

/// The bytes that a recipe makes.
fn made(recipe: &str) -> Vec<u8> {
    let pieces = recipe.split(' ').filter(|piece| !piece.is_empty());
    pieces.flat_map(piece).collect()
}

/// A listing itself, or its length, its checksum and its end where it is long.
fn shown(listing: Vec<u8>) -> Vec<u8> {
    if listing.len() <= LONGEST_SHOWN {
        return listing;
    }
    let sum = checksum(listing.iter().map(|&byte| byte.into()));
    let mut shown = format!("{} {sum}\n", listing.len()).into_bytes();
    shown.extend(&listing[listing.len() - END_SHOWN..]);
    shown
}

fn checksum(places: impl Iterator<Item = u64>) -> u32 {
    places.fold(0u32, |h, place| {
        h.wrapping_mul(31).wrapping_add(place as u32)
    })
}

fn stopped_text(stop: Stop) -> String {
    format!("stop {} {}\n", stop.number, stop.place)
}

// Listings read back.

const LONGEST_LIST_SHOWN: usize = 12;

/// Of a number of void breaths, the lengths of both lists and the recipe of what follows: what loading
/// answers, and the lists behind it.
fn loading_answer(asked: &str) -> Vec<u8> {
    let mut parts = asked.splitn(4, ':');
    let mut number = || -> usize {
        parts
            .next()
            .and_then(|part| part.parse().ok())
            .expect("a number")
    };
    let (voids, p, q) = (number(), number(), number());
    let mut text: Vec<u8> = (1..=voids)
        .flat_map(|breath| night::line(&breath.to_string(), night::VOID).into_bytes())
        .collect();
    text.extend(made(parts.next().expect("a recipe")));
    let mut numbers: Vec<u64> = (1000000..).take(p).collect();
    let mut words: Vec<u64> = (2000000..).take(q).collect();
    let told = match load::load(&text, &mut numbers, &mut words) {
        Ok((count, total)) => format!("done {count} {total}\n"),
        Err(stop) => stopped_text(stop),
    };
    format!("{told}{}\n{}\n", list_text(&numbers), list_text(&words)).into_bytes()
}

fn list_text(list: &[u64]) -> String {
    if list.len() <= LONGEST_LIST_SHOWN {
        return joined(list.iter().map(u64::to_string));
    }
    format!("{} {}", list.len(), checksum(list.iter().copied()))
}

// Words printed.

/// Words of eight bytes each, the highest first, and the last of them the total's: their listing, or the
/// stop that reading would have at the first line that no listing has.
fn printing_answer(recipe: &str) -> Vec<u8> {
    let bytes = made(recipe);
    let all: Vec<u64> = bytes
        .chunks(8)
        .map(|word| {
            word.iter()
                .fold(0, |value, &byte| value << 8 | u64::from(byte))
        })
        .collect();
    let (&total, words) = all.split_last().expect("a total");
    match load::print_stop(words, total) {
        Some(stop) => stopped_text(stop).into_bytes(),
        None => shown(load::printed(words, total)),
    }
}

fn piece(text: &str) -> Vec<u8> {
    let (count, digits) = text.split_once('*').expect("a piece");
    let bytes: Vec<u8> = (0..digits.len())
        .step_by(2)
        .map(|at| u8::from_str_radix(&digits[at..at + 2], 16).expect("two digits"))
        .collect();
    bytes.repeat(count.parse().expect("a count"))
}
