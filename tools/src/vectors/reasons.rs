//! Vectors for the calls for one sentence and for the sentences from an instruction on.

use super::grouping::cut_files;
use super::order::broken_files;
use super::{halves, push_file, push_numbers, shells, LONGEST_TEXT};
use crate::check::{check, Accepted, Refused};
use crate::file::{build, Block, File};
use crate::reasons::{fates, outcome, sentences, Asked, Fate, ReasonNumbers};

/// Bytes lent for files whose sentences are not looked at.
const AMPLE_TEXT: usize = 1_000;

/// Blocks of a file where several are put together.
const TOGETHER: usize = 12;

/// Generated files.
const GENERATED: usize = 3;

/// A file, what is asked of it and how many bytes are lent, with the answer and the text's front,
/// empty on refusal.
pub struct ReasonVector {
    pub asked: Asked,
    pub text_len: usize,
    pub expected: ReasonNumbers,
    pub text: String,
    pub file: Vec<u8>,
}

/// Which of the two calls: what it asks for, by the number of an instruction.
type Call = fn(u64) -> Asked;

/// A file with the answer of the check and the sentences of its instructions, none where it is
/// refused.
struct Said {
    file: Vec<u8>,
    checked: Result<Accepted, Refused>,
    sentences: Vec<Option<String>>,
}

impl Said {
    fn new(file: Vec<u8>) -> Said {
        let checked = check(&file);
        Said {
            checked,
            sentences: checked.map_or(vec![], |_| sentences(&file)),
            file,
        }
    }

    fn vector(&self, asked: Asked, text_len: usize) -> ReasonVector {
        assert!(text_len <= LONGEST_TEXT);
        let outcome = outcome(self.checked, &self.sentences, asked, text_len);
        ReasonVector {
            asked,
            text_len,
            expected: outcome.numbers,
            text: outcome.text,
            file: self.file.clone(),
        }
    }

    /// Bytes of the sentence of an instruction, 0 where it has none.
    fn length(&self, n: usize) -> usize {
        self.sentences[n].as_ref().map_or(0, String::len)
    }

    /// Bytes of the first line from an instruction on, and of all.
    fn lines(&self, n: usize) -> [usize; 2] {
        let lines = self.sentences[n..].iter().flatten();
        let lines: Vec<usize> = lines.map(|said| said.len() + 1).collect();
        [lines.first().copied().unwrap_or(0), lines.iter().sum()]
    }

    /// Every instruction by itself: a text that its sentence just fills, in turns with a byte more.
    fn each(&self) -> Vec<ReasonVector> {
        let exact = |n| self.vector(Asked::One(n as u64), self.length(n) + n % 2);
        (0..self.sentences.len()).map(exact).collect()
    }

    /// From every instruction on: a text that all lines just fill, in turns with a byte less and a
    /// byte more.
    fn lines_from_each(&self) -> Vec<ReasonVector> {
        let around = |n: usize| {
            let [_, all] = self.lines(n);
            let text = [all, all.saturating_sub(1), all + 1][n % 3];
            self.vector(Asked::From(n as u64), text)
        };
        (0..self.sentences.len()).map(around).collect()
    }

    /// One sentence with texts of every length up to one more than it needs, and with the longest.
    fn at_lengths(&self, n: usize) -> Vec<ReasonVector> {
        let lengths = (0..=self.length(n) + 1).chain([LONGEST_TEXT]);
        let one = Asked::One(n as u64);
        lengths.map(|text| self.vector(one, text)).collect()
    }

    /// The lines from an instruction on with texts of every length in the same way.
    fn lines_at_lengths(&self, n: usize) -> Vec<ReasonVector> {
        let [_, all] = self.lines(n);
        let lengths = (0..=all + 1).chain([LONGEST_TEXT]);
        let from = Asked::From(n as u64);
        lengths.map(|text| self.vector(from, text)).collect()
    }

    /// The lines from an instruction on: none, the first alone and all, these also with a byte
    /// less, and with a byte more than all.
    fn lines_from(&self, n: usize) -> Vec<ReasonVector> {
        let [first, all] = self.lines(n);
        let before = |n: usize| n.saturating_sub(1);
        let mut texts = vec![0, before(first), first, before(all), all, all + 1];
        // There may be one line, or none.
        texts.sort_unstable();
        texts.dedup();
        let from = Asked::From(n as u64);
        let vectors = texts.into_iter().map(|text| self.vector(from, text));
        vectors.collect()
    }

    /// Numbers that no instruction has, some of which would name one by their low half alone, with
    /// a text that is long enough for all and with none.
    fn none(&self, call: Call) -> Vec<ReasonVector> {
        let count = self.sentences.len() as u64;
        let high = 1 << 32;
        let numbers = [count, count + 1, high, high + count / 2, 1 << 63, u64::MAX];
        let all = self.lines(0)[1];
        let both = |number| [all + 1, 0].map(|text| self.vector(call(number), text));
        numbers.into_iter().flat_map(both).collect()
    }
}

/// A file of some blocks, by their addresses.
fn together(blocks: &[Block]) -> Said {
    let mut blocks = blocks.to_vec();
    blocks.sort_by_key(|block| block.address);
    Said::new(build(&blocks).bytes)
}

/// The blocks of single records, each of which has the fate that its reason makes.
fn named() -> Vec<Block> {
    let blocks = shells::named().into_iter().map(|(block, reason)| {
        let fate = reason.map_or(Fate::Native, Fate::Shell);
        let file = build(std::slice::from_ref(&block));
        assert_eq!(fates(&file.bytes), [fate], "{block:?}");
        block
    });
    blocks.collect()
}

/// Files of several blocks.
fn files() -> Vec<Said> {
    let named = [shells::apart(), shells::ends(), shells::over_pages()];
    let files = named.into_iter().chain(shells::generated(GENERATED));
    files.map(|file: File| Said::new(file.bytes)).collect()
}

/// Files that are refused: for every other pair of faults, and cut ones, with a text that is long
/// enough and with none, and with a number that no instruction has.
fn refused(call: Call, turn: usize) -> Vec<ReasonVector> {
    let broken = broken_files().into_iter().skip(turn).step_by(2);
    let files = broken.map(|(_, _, file)| file.bytes).chain(cut_files());
    let asked = [
        (0, AMPLE_TEXT),
        (u64::MAX, AMPLE_TEXT),
        (0, 0),
        (u64::MAX, 0),
    ];
    let vectors = files.zip(asked.into_iter().cycle());
    let vectors = vectors.map(|(file, (n, text))| Said::new(file).vector(call(n), text));
    vectors.collect()
}

/// Vectors for numbers that no instruction has, where there are several with sentences, one, and
/// none.
fn no_instruction(call: Call) -> Vec<ReasonVector> {
    let alone = named().into_iter().map(|block| together(&[block]));
    let one = alone.filter(|file| file.sentences[0].is_some()).take(1);
    let others = [shells::lines(), build(&[])].map(|file| Said::new(file.bytes));
    one.chain(others).flat_map(|file| file.none(call)).collect()
}

/// Vectors for one sentence.
pub fn reason() -> Vec<ReasonVector> {
    let alone = [
        named(),
        shells::conditions(),
        shells::regions(),
        shells::halves(),
        shells::rests(),
    ];
    let alone = alone.concat();
    let alone = alone.chunks(1).map(together);
    let walk = Said::new(shells::walk().bytes);
    let files = alone.chain(files()).chain([walk]);
    let mut out: Vec<_> = files.flat_map(|file| file.each()).collect();
    let lines = Said::new(shells::lines().bytes);
    // The longest sentence a byte short, the shortest, and none.
    out.push(lines.vector(Asked::One(0), lines.length(0) - 1));
    out.extend(lines.each());
    for n in [1, 2] {
        out.extend(lines.at_lengths(n));
    }
    out.extend(no_instruction(Asked::One));
    out.extend(refused(Asked::One, 0));
    out
}

/// Vectors for the sentences from an instruction on.
pub fn reasons() -> Vec<ReasonVector> {
    let mut out = vec![];
    for blocks in [named(), shells::conditions(), shells::regions()] {
        for file in blocks.chunks(TOGETHER).map(together) {
            let middle = file.sentences.len() / 2;
            let [_, all] = file.lines(0);
            out.push(file.vector(Asked::From(0), all));
            out.push(file.vector(Asked::From(middle as u64), all / 4));
        }
    }
    for block in [shells::halves(), shells::rests()].concat() {
        out.extend(together(&[block]).lines_from_each());
    }
    out.extend(files().iter().flat_map(Said::lines_from_each));
    let walk = Said::new(shells::walk().bytes);
    for n in 0..walk.sentences.len() {
        out.extend(walk.lines_from(n));
    }
    out.extend(Said::new(shells::lines().bytes).lines_at_lengths(0));
    let long = Said::new(shells::long().bytes);
    let [_, all] = long.lines(0);
    out.push(long.vector(Asked::From(0), all));
    out.push(long.vector(Asked::From(125), all / 4));
    out.extend(no_instruction(Asked::From));
    out.extend(refused(Asked::From, 1));
    out
}

/// A count, then for each vector the number of the instruction, its low half before the high one,
/// and how many bytes are lent for the text; the numbers of the answer, with 0 for the instruction
/// to go on with where the call does not say it; the length of the file, its bytes, and the text:
/// as many bytes as the answer's length.
pub fn encode_reasons(vectors: &[ReasonVector]) -> Vec<u8> {
    let mut out = vec![];
    push_numbers(&mut out, &[vectors.len() as u64]);
    for v in vectors {
        let e = &v.expected;
        push_numbers(&mut out, &halves(v.asked.number()));
        push_numbers(&mut out, &[v.text_len as u64]);
        let answer = [e.number.into(), e.at, e.next.unwrap_or(0), e.length];
        push_numbers(&mut out, &answer);
        push_file(&mut out, &v.file);
        out.extend_from_slice(v.text.as_bytes());
    }
    out
}
