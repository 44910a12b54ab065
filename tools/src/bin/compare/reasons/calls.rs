//! Both calls on a file with texts of several lengths, against the model.

use super::{Side, Tally};
use crate::library;
use recomp_tools::check::{check, Accepted, Refused};
use recomp_tools::lent;
use recomp_tools::reasons::{outcome, sentences, Asked};
use recomp_tools::rng::Rng;
use std::fmt::Debug;

/// Instructions that are asked for in a file with more: each call checks the whole file.
const ASKED: usize = 40;
const ASKED_OF_LARGE: usize = 4;

/// Bytes lent beyond those that a call needs.
const SPARE: usize = 5;

/// Bytes behind those that are lent, which no call may write: longer than a line.
const BEHIND: usize = 64;

/// How much is asked of a file.
#[derive(Clone, Copy, PartialEq, Eq)]
pub enum Sort {
    /// The sentence of each instruction.
    Small,
    /// Those of some.
    Large,
}

/// A file with the answer of the check and, if it is accepted, the sentences of its instructions.
pub struct Said<'a> {
    /// What it was made from, or its name.
    pub name: &'a dyn Debug,
    pub bytes: &'a [u8],
    pub sort: Sort,
    checked: Result<Accepted, Refused>,
    sentences: Vec<Option<String>>,
}

impl<'a> Said<'a> {
    pub fn new(name: &'a dyn Debug, bytes: &'a [u8], sort: Sort) -> Said<'a> {
        let checked = check(bytes);
        Said {
            name,
            bytes,
            sort,
            checked,
            sentences: checked.map_or(vec![], |_| sentences(bytes)),
        }
    }

    /// Bytes of the lines from an instruction on, each by itself.
    fn lines(&self, first: usize) -> Vec<usize> {
        let from = self.sentences[first..].iter().flatten();
        from.map(|said| said.len() + 1).collect()
    }

    /// Bytes of all lines.
    pub fn length(&self) -> usize {
        self.lines(0).iter().sum()
    }

    /// How many instructions it has, none where it is refused.
    pub fn instructions(&self) -> usize {
        self.sentences.len()
    }

    /// The first and the last instruction and others by chance, or all of a few.
    fn some(&self, most: usize) -> Vec<usize> {
        let count = self.instructions();
        if count <= most {
            return (0..count).collect();
        }
        let rng = &mut Rng::new(count as u64);
        let others = (2..most).map(|_| rng.below(count));
        [0, count - 1].into_iter().chain(others).collect()
    }
}

impl Tally {
    /// One call with so many bytes lent, and all that it leaves in them and behind them.
    fn call(&mut self, file: &Said, asked: Asked, text_len: usize) {
        let mut text = lent::text(text_len + BEHIND);
        let answer = library::reasons(file.bytes, asked, &mut text[..text_len]);
        let expected = outcome(file.checked, &file.sentences, asked, text_len);
        let wrong_byte = lent::wrong_byte(&text, expected.text.as_bytes());
        let many = matches!(asked, Asked::From(_)) as usize;
        self.answers[many][expected.numbers.number as usize] += 1;
        if answer != expected.numbers || wrong_byte.is_some() {
            let numbers = expected.numbers;
            let answers = format!("library {answer:?}, expected {numbers:?}");
            let wrong = format!("first wrong byte: {wrong_byte:?}");
            let what = format!("{asked:?}, {text_len} bytes:\n  {answers}\n  {wrong}");
            self.mismatch(Side::Model, file, &what);
        }
    }

    /// The sentence of an instruction, with texts that are empty, half as long, a byte short,
    /// exactly full and longer; where there is none, empty and longer.
    fn one(&mut self, file: &Said, n: usize) {
        let length = file.sentences[n].as_ref().map_or(0, String::len);
        for text in lengths(&[length / 2, length]) {
            self.call(file, Asked::One(n as u64), text);
        }
    }

    /// The sentences from an instruction on, with texts that are empty, and that have room for the
    /// first line, for the first two, for half of all bytes and for all: exactly, a byte less and
    /// some more. A byte less than the first line is what its sentence has.
    fn from(&mut self, file: &Said, n: usize) {
        let lines = file.lines(n);
        let [one, two, all] = [1, 2, lines.len()].map(|k| lines.iter().take(k).sum::<usize>());
        for text in lengths(&[one, two, all / 2, all]) {
            self.call(file, Asked::From(n as u64), text);
        }
    }

    /// Numbers that no instruction has, some of which would name one by their low 32 bits alone.
    fn none(&mut self, file: &Said) {
        let count = file.instructions() as u64;
        let length = file.length();
        let high = 1 << 32;
        for number in [
            count,
            count + 1,
            high,
            high + count / 2,
            high + count,
            u64::MAX,
        ] {
            for text in [0, length, length + SPARE] {
                self.call(file, Asked::One(number), text);
                self.call(file, Asked::From(number), text);
            }
        }
    }

    /// All calls on a file that is accepted.
    pub fn calls(&mut self, file: &Said) {
        self.bytes += file.length();
        let (one, from) = match file.sort {
            Sort::Small => (usize::MAX, ASKED),
            Sort::Large => (ASKED, ASKED_OF_LARGE),
        };
        for n in file.some(one) {
            self.one(file, n);
        }
        for n in file.some(from) {
            self.from(file, n);
        }
        self.none(file);
    }

    /// Calls on a file that is refused, whatever is asked and lent.
    pub fn refused(&mut self, file: &Said) {
        for number in [0, u64::MAX] {
            for text in [0, file.bytes.len()] {
                self.call(file, Asked::One(number), text);
                self.call(file, Asked::From(number), text);
            }
        }
    }
}

/// Nothing, and each of these exactly, with a byte less and with some more, each once.
fn lengths(exact: &[usize]) -> Vec<usize> {
    let around = exact.iter().map(|&n| [n.saturating_sub(1), n, n + SPARE]);
    let mut lengths: Vec<usize> = around.flatten().chain([0]).collect();
    lengths.sort_unstable();
    lengths.dedup();
    lengths
}
