//! Vectors with several faults at once, of which the first in the table's order counts.

use super::Vectors;
use crate::damage::damaged;
use crate::file::block::{ADDRESS, COUNT, FLAGS};
use crate::file::{build, trailer, Block, File};
use crate::generate::{self, Params};
use crate::record::Record;
use crate::rng::Rng;

/// A place of the table.
#[derive(Clone, Copy)]
enum Place {
    Trailer,
    Block(usize),
    AfterBlocks,
    Instruction(usize),
}

/// A fault by its place and the refusal's number.
type Fault = (Place, u32);

/// In the table's order.
const FAULTS: [Fault; 12] = [
    (Place::Trailer, 2),
    (Place::Trailer, 3),
    (Place::Block(0), 4),
    (Place::Block(1), 5),
    (Place::Block(2), 4),
    (Place::Block(2), 5),
    (Place::Block(4), 4),
    (Place::Block(4), 5),
    (Place::AfterBlocks, 6),
    (Place::Instruction(0), 7),
    (Place::Instruction(4), 7),
    (Place::Instruction(9), 7),
];

/// Generated files as they are, and damaged copies of others.
const WHOLE: usize = 60;
const COPIES: usize = 300;

/// Generated files above this length are passed over, to keep the vectors short.
const SHORT: usize = 400;

pub fn add(out: &mut Vectors) {
    for (number, at, file) in broken_files() {
        out.refuse(number, at, &file);
    }
    generated(out);
}

/// Each fault with each later one and with all of them: the refusal's number, its i, and the file.
pub(super) fn broken_files() -> Vec<(u32, usize, File)> {
    let mut out = vec![];
    for (n, &first) in FAULTS.iter().enumerate() {
        let later = &FAULTS[n + 1..];
        out.extend(later.iter().map(|&second| broken(first, &[second])));
        out.push(broken(first, later));
    }
    out
}

/// A file with all these faults, of which the first counts.
fn broken(first: Fault, later: &[Fault]) -> (u32, usize, File) {
    let mut file = base();
    for &(place, number) in later.iter().chain([&first]) {
        break_rule(&mut file, place, number);
    }
    let at = match first.0 {
        Place::Block(i) | Place::Instruction(i) => i,
        Place::Trailer | Place::AfterBlocks => 0,
    };
    (first.1, at, file)
}

/// Five blocks of two instructions each.
fn base() -> File {
    let block = |n| Block {
        address: 0x0800_0000 + 0x10 * n,
        thumb: n % 2 == 1,
        code: None,
        records: vec![Record::thumb_bl_high(n), Record::bx(14)],
    };
    build(&(0..5).map(block).collect::<Vec<_>>())
}

/// Breaks one rule by a change that leaves the other faults' rules as they are.
fn break_rule(file: &mut File, place: Place, number: u32) {
    let (at, value) = match (place, number) {
        (Place::Trailer, 2) => (file.trailer_at(trailer::BLOCKS), 65_537),
        (Place::Trailer, _) => (file.trailer_at(trailer::EDITION), 0),
        (Place::Block(i), 4) => {
            let at = file.block_at(i, FLAGS);
            (at, file.word(at) | 4)
        }
        (Place::Block(i), _) => (file.block_at(i, ADDRESS), 0x0700_0000),
        (Place::AfterBlocks, _) => (file.block_at(3, COUNT), 3),
        (Place::Instruction(i), _) => (file.instruction_at(i) + 8, 1),
    };
    file.set_word(at, value);
}

fn generated(out: &mut Vectors) {
    let mut files = (0..)
        .map(|seed| generate::file(&Params::small(seed)))
        .filter(|file| file.bytes.len() <= SHORT);
    for file in files.by_ref().take(WHOLE) {
        out.accept(&file);
    }
    let rng = &mut Rng::new(0);
    for file in files.take(COPIES) {
        let faults = rng.between(2, 5);
        out.judge(damaged(rng, &file, faults));
    }
}
