//! Vectors for the printer of decimal numbers, as Rust itself prints them.

use super::{halves, push_numbers, LONGEST_TEXT};
use crate::rng::Rng;
use std::collections::{BTreeSet, HashSet};

/// Digits of the largest number.
const MOST_DIGITS: u32 = 20;

/// How many random numbers of each length.
const RANDOM: usize = 4;

/// All numbers below this one are printed.
const SMALL: u64 = 130;

/// Lengths whose numbers are printed to texts of many sizes: the shortest, those on either side of
/// 2, 5, 10 and 15 digits, where parts of the printer meet, and 19 and 20, the longest, whose first
/// digits are found otherwise.
const LENGTHS: [usize; 11] = [1, 2, 3, 5, 6, 10, 11, 15, 16, 19, 20];

/// Digits that differ from their neighbours, so that one in the wrong place shows. All 20 of the
/// second are too large a number.
const RISING: &str = "12345678901234567890";
const FALLING: &str = "98765432109876543210";

/// A number, the index that it is printed at and how many bytes are lent, with the index after its
/// digits and all bytes lent as they stand afterwards.
pub struct DecimalVector {
    pub number: u64,
    pub at: u64,
    pub text_len: usize,
    pub after: u64,
    pub text: Vec<u8>,
}

/// What is asked for: the number, the index and how many bytes are lent.
type Asked = (u64, u64, usize);

/// The text before the call, as `Lent::new` of `case_lent` makes it. None of its bytes is a digit, and
/// neighbours differ.
fn lent(text_len: usize) -> Vec<u8> {
    (0..text_len).map(|i| 255 - (i % 127) as u8).collect()
}

fn vector((number, at, text_len): Asked) -> DecimalVector {
    assert!(text_len <= LONGEST_TEXT);
    let digits = number.to_string().into_bytes();
    let mut text = lent(text_len);
    let from = at.min(text_len as u64) as usize;
    for (byte, &digit) in text[from..].iter_mut().zip(&digits) {
        *byte = digit;
    }
    DecimalVector {
        number,
        at,
        text_len,
        after: at.saturating_add(digits.len() as u64),
        text,
    }
}

/// How many digits a number has.
fn length(number: u64) -> usize {
    number.to_string().len()
}

/// Each digit but 0, repeated as often as 64 bits hold.
fn repeated() -> impl Iterator<Item = u64> {
    let times = |digit: u64| (1..=MOST_DIGITS as usize).map(move |n| digit.to_string().repeat(n));
    let digits = (1..=9).flat_map(times);
    digits.filter_map(|digits| digits.parse().ok())
}

/// Some numbers of each length.
fn random() -> Vec<u64> {
    let rng = &mut Rng::new(0);
    let mut out = vec![];
    for digits in 1..=MOST_DIGITS {
        let least = 10u64.pow(digits - 1);
        let most = 10u64.checked_pow(digits).map_or(u64::MAX, |end| end - 1);
        out.extend((0..RANDOM).map(|_| least + rng.next_u64() % (most - least + 1)));
    }
    out
}

/// The numbers that are printed to a text that they just fill.
fn numbers() -> BTreeSet<u64> {
    let tens = (0..MOST_DIGITS).map(|k| 10u64.pow(k));
    let twos = (0..u64::BITS).map(|k| 1u64 << k);
    let around = tens.chain(twos).flat_map(|n| [n - 1, n, n + 1]);
    let others = repeated().chain(random()).chain([u64::MAX]);
    (0..SMALL).chain(around).chain(others).collect()
}

/// The numbers that are printed to texts of many sizes: 0, and of each length one with digits that
/// rise, one with digits that fall or the largest, and one with zeros behind its first digit.
fn placed() -> Vec<u64> {
    let mut out = vec![0];
    for digits in LENGTHS {
        let front = |of: &str| of[..digits].parse().unwrap_or(u64::MAX);
        let tens = 10u64.pow(digits as u32 - 1);
        out.extend([front(RISING), front(FALLING), tens]);
    }
    out
}

/// A number at the front of texts of every length up to two more than it needs, and behind some
/// bytes with texts that end before it, within it, with it and after it.
fn inside(number: u64) -> Vec<Asked> {
    let digits = length(number);
    let mut out: Vec<_> = (0..=digits + 2).map(|text| (number, 0, text)).collect();
    for at in [1, 7] {
        let end = at + digits;
        let texts = [0, at, at + 1, end - 1, end, end + 3];
        out.extend(texts.map(|text| (number, at as u64, text)));
    }
    out
}

/// A number past the end of the text: shortly; so far that the index after it is just the largest
/// one of 64 bits, or would be larger; and where the low half of the index alone would be inside.
/// The text has room for what would be written at an index that wraps around.
fn outside(number: u64) -> Vec<Asked> {
    let digits = length(number);
    let text = digits + 8;
    let near = [text + 1, text + digits].map(|at| at as u64);
    let just = u64::MAX - digits as u64;
    let far = [just, just + 1, u64::MAX, (1 << 32) + 5];
    let all = near.into_iter().chain(far);
    all.map(|at| (number, at, text)).collect()
}

/// Texts of a few hundred bytes, one with room behind the digits and one that ends within them.
fn far_inside() -> [Asked; 2] {
    let rising = RISING.parse().expect("a number of 64 bits");
    [(rising, 200, 300), (u64::MAX, 490, 500)]
}

pub fn decimals() -> Vec<DecimalVector> {
    let full = numbers().into_iter().map(|n| (n, 0, length(n)));
    let placed = placed();
    let inside = placed.iter().flat_map(|&n| inside(n));
    let outside = placed.iter().flat_map(|&n| outside(n));
    let all = full.chain(inside).chain(outside).chain(far_inside());
    // Two ways to choose a size or an index may come to the same one for a short number.
    let mut asked = HashSet::new();
    let once = all.filter(|&one| asked.insert(one));
    once.map(vector).collect()
}

/// A count, then for each vector the number and the index, each with its low half before the high
/// one, how many bytes are lent, and the index after the digits, likewise; then the bytes lent, as they
/// stand afterwards.
pub fn encode_decimals(vectors: &[DecimalVector]) -> Vec<u8> {
    let mut out = vec![];
    push_numbers(&mut out, &[vectors.len() as u64]);
    for v in vectors {
        push_numbers(&mut out, &halves(v.number));
        push_numbers(&mut out, &halves(v.at));
        push_numbers(&mut out, &[v.text_len as u64]);
        push_numbers(&mut out, &halves(v.after));
        out.extend_from_slice(&v.text);
    }
    out
}
