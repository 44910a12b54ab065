//! Stored vectors: each a file with the answer that it must get, from the check or another call, or
//! a number with the digits that it must be printed with.

mod blocks;
pub mod decimal;
pub mod fronts;
pub mod grouping;
mod instructions;
mod kept;
mod long;
pub mod measure;
mod order;
pub mod pages;
pub mod reasons;
mod shells;
mod trailer;
mod units;
pub mod write;

use crate::check::{check, Accepted, Numbers, Refused};
use crate::file::{Block, File};
use crate::record::Record;
use std::collections::HashSet;

/// The reader of the vectors has buffers of fixed size.
const LONGEST_FILE: usize = 4_096;
const LONGEST_TEXT: usize = 65_536;
const MOST_WORK: usize = 575;

/// Work numbers lent for files whose blocks are not looked at.
const AMPLE_WORK: usize = 508;

pub struct Vector {
    pub expected: Numbers,
    pub file: Vec<u8>,
}

/// The vectors collected so far. Every expectation is held against `check` as it comes in.
#[derive(Default)]
struct Vectors {
    list: Vec<Vector>,
    /// Files in the list: two ways to break a rule may come to the same file.
    files: HashSet<Vec<u8>>,
}

impl Vectors {
    fn push(&mut self, expected: Result<Accepted, Refused>, file: Vec<u8>) {
        assert_eq!(check(&file), expected, "{file:?}");
        assert!(file.len() <= LONGEST_FILE);
        if !self.files.insert(file.clone()) {
            return;
        }
        let expected = expected.into();
        self.list.push(Vector { expected, file });
    }

    /// A file that is accepted with the counts that it was built with.
    fn accept(&mut self, file: &File) {
        let counts = Accepted {
            blocks: file.blocks as u64,
            instructions: file.instructions as u64,
        };
        self.push(Ok(counts), file.bytes.clone());
    }

    fn refuse(&mut self, number: u32, at: usize, file: &File) {
        let at = at as u64;
        self.push(Err(Refused { number, at }), file.bytes.clone());
    }

    /// A file whose answer is taken from `check`.
    fn judge(&mut self, file: Vec<u8>) {
        self.push(check(&file), file);
    }
}

pub fn all() -> Vec<Vector> {
    let mut out = Vectors::default();
    trailer::add(&mut out);
    blocks::add(&mut out);
    instructions::add(&mut out);
    long::add(&mut out);
    order::add(&mut out);
    out.list
}

/// A count, then for each vector the four numbers of the answer, the length of the file and its
/// bytes.
pub fn encode(vectors: &[Vector]) -> Vec<u8> {
    let mut out = vec![];
    push_numbers(&mut out, &[vectors.len() as u64]);
    for v in vectors {
        let e = &v.expected;
        push_numbers(&mut out, &[e.number.into(), e.at, e.blocks, e.instructions]);
        push_file(&mut out, &v.file);
    }
    out
}

fn push_numbers(out: &mut Vec<u8>, numbers: &[u64]) {
    for &number in numbers {
        let number = u32::try_from(number).expect("numbers of vectors have 32 bits");
        out.extend_from_slice(&number.to_le_bytes());
    }
}

/// The low half of a number, and the high one.
fn halves(n: u64) -> [u64; 2] {
    [n & 0xffff_ffff, n >> 32]
}

fn push_file(out: &mut Vec<u8>, file: &[u8]) {
    assert!(file.len() <= LONGEST_FILE);
    push_numbers(out, &[file.len() as u64]);
    out.extend_from_slice(file);
}

/// `count` blocks of one Bx each, 256 bytes apart from `address` on.
fn lone_blocks(count: u32, address: u32, thumb: bool, code: bool) -> Vec<Block> {
    (0..count)
        .map(|n| Block {
            address: address + 0x100 * n,
            thumb,
            code: code.then(|| vec![n as u8; if thumb { 2 } else { 4 }]),
            records: vec![Record::bx(14).with_cost(n as u16)],
        })
        .collect()
}

/// The first, a middle and the last of `count` records.
fn places(count: usize) -> [usize; 3] {
    [0, count / 2, count - 1]
}

/// All three places for the first of several values, one place in turn for each of the others: so
/// that every rule is broken at every place and the vectors stay few.
fn turn_places(turn: usize, places: [usize; 3]) -> Vec<usize> {
    match turn {
        0 => places.to_vec(),
        _ => vec![places[turn % 3]],
    }
}
