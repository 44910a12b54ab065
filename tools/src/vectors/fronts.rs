//! Vectors for the calls for the units from one on and for their lengths. Their texts are the
//! original's, made as they are written.

use super::grouping::{cut_files, damaged_files};
use super::units::{at_sizes, emitted, files, Emitted};
use super::{halves, push_file, push_numbers, AMPLE_WORK, LONGEST_TEXT};
use crate::fronts::{outcome, total, FrontNumbers, Lent};
use crate::original::Program;
use crate::units::Unit;

/// The reader of the vectors has so many places for a length, and lends fewer.
const PLACES: usize = 32;

/// Places lent for files whose blocks are not looked at.
const AMPLE_PLACES: usize = 20;

/// A file, what is asked of it and how much is lent, with how many work numbers become 0, the
/// answer, and the units whose texts and lengths stand at the fronts, none on refusal.
pub struct FrontVector {
    pub max_bytes: u64,
    pub first: u64,
    pub lent: Lent,
    pub cleared: usize,
    pub expected: FrontNumbers,
    pub units: Vec<Unit>,
    pub file: Vec<u8>,
}

fn vector(file: &Emitted, first: u64, lent: Lent) -> FrontVector {
    let outcome = outcome(file.checked, &file.units, first, lent);
    assert!(lent.lengths < PLACES && lent.text.unwrap_or(0) <= LONGEST_TEXT);
    FrontVector {
        max_bytes: file.max_bytes,
        first,
        lent,
        cleared: outcome.cleared,
        expected: outcome.numbers,
        units: outcome.units.to_vec(),
        file: file.file.to_vec(),
    }
}

/// How much is lent, by bytes of text and places, with work numbers exactly or, every other time,
/// with some to spare.
fn lend(work: usize, lents: &[(Option<usize>, usize)]) -> Vec<Lent> {
    let lend = |(n, &(text, lengths)): (usize, &_)| Lent {
        work: work + n % 2,
        text,
        lengths,
    };
    lents.iter().enumerate().map(lend).collect()
}

/// Units from the first on, from a middle one or from the last: a text exactly full, a byte short,
/// with two units and a bit, a byte short of one and empty; places with one to spare, for one
/// fewer, for one, and none.
fn units_of(file: &Emitted, turn: usize) -> Vec<FrontVector> {
    let count = file.units.len();
    let first = [0, count / 2, count - 1][turn % 3];
    let from = &file.units[first..];
    let (left, all, one) = (from.len(), total(from), from[0].text.len());
    // Of fewer than three units: all but the last, and half of that.
    let whole = 2.min(left - 1);
    let bit = total(&from[..whole]) + from[whole].text.len() / 2;
    let lents = [
        (all, left),
        (all - 1, left + 1),
        (bit, left),
        (all + 3, 1),
        (one - 1, left),
        (0, left),
        (all, 0),
        (all, left - 1),
    ];
    let lents = lents.map(|(text, lengths)| (Some(text), lengths));
    let lents = lend(file.work(), &lents);
    let vector = |lent| vector(file, first as u64, lent);
    lents.into_iter().map(vector).collect()
}

/// Their lengths, with a place to spare, with one for each, one fewer, one, and none.
fn lengths_of(file: &Emitted, turn: usize) -> Vec<FrontVector> {
    let count = file.units.len();
    let first = [0, count / 2, count - 1][turn % 3];
    let left = count - first;
    let lents = [left + 1, left, left - 1, 1, 0].map(|lengths| (None, lengths));
    let lents = lend(file.work(), &lents);
    let vector = |lent| vector(file, first as u64, lent);
    lents.into_iter().map(vector).collect()
}

/// Numbers that there is no unit for, which come before what is lent beside work numbers, and after
/// short work numbers.
fn refusals(file: &Emitted, texts: [Option<usize>; 2]) -> Vec<FrontVector> {
    let (count, work) = (file.units.len() as u64, file.work());
    let lent = |work, text: usize| Lent {
        work,
        text: texts[text],
        lengths: 3 * text,
    };
    let mut out = vec![
        vector(file, count, lent(work, 1)),
        vector(file, (1 << 32) + count - 1, lent(work + 1, 1)),
        vector(file, u64::MAX, lent(work, 0)),
    ];
    if work > 0 {
        out.push(vector(file, 0, lent(work - 1, 1)));
        out.push(vector(file, count, lent(0, 0)));
    }
    out
}

/// Files that are refused, with enough lent and nothing.
fn damaged(program: &Program, texts: [Option<usize>; 2]) -> Vec<FrontVector> {
    let mut out = vec![];
    for copy in damaged_files().chain(cut_files()) {
        for file in emitted(program, &copy, &[u64::MAX]) {
            let lents = [(AMPLE_WORK, texts[1], AMPLE_PLACES), (0, texts[0], 0)];
            for (work, text, lengths) in lents {
                out.push(vector(
                    &file,
                    0,
                    Lent {
                        work,
                        text,
                        lengths,
                    },
                ));
            }
        }
    }
    out
}

/// Vectors for the units from one on, at size 0, at one that is met exactly and at the largest. The
/// original's program emits the texts.
pub fn fronts(program: &Program) -> Vec<FrontVector> {
    let mut out = vec![];
    for (turn, file) in files() {
        let [at_0, _, at_exact, _, at_most] = at_sizes(program, &file.bytes, turn);
        let sizes = [at_0, at_exact, at_most];
        for (n, file) in sizes.iter().enumerate() {
            out.extend(units_of(file, turn + n));
        }
        out.extend(refusals(&sizes[turn % 3], [Some(0), Some(LONGEST_TEXT)]));
    }
    out.extend(damaged(program, [Some(0), Some(LONGEST_TEXT)]));
    out
}

/// Vectors for their lengths, likewise.
pub fn lengths(program: &Program) -> Vec<FrontVector> {
    let mut out = vec![];
    for (turn, file) in files() {
        let sizes = at_sizes(program, &file.bytes, turn);
        for (n, file) in sizes.iter().enumerate() {
            out.extend(lengths_of(file, turn + n));
            out.extend(refusals(file, [None, None]));
        }
    }
    out.extend(damaged(program, [None, None]));
    out
}

/// A count, then for each vector max_bytes and the number of the first unit, the low half of each
/// before the high one; how many numbers are lent as work, how many bytes for the text (not for
/// lengths) and how many places, and how many work numbers become 0; the numbers of the answer, the
/// length of the file, its bytes, the texts (not for lengths), and the length of each.
pub fn encode_fronts(vectors: &[FrontVector]) -> Vec<u8> {
    let mut out = vec![];
    push_numbers(&mut out, &[vectors.len() as u64]);
    for v in vectors {
        let e = &v.expected;
        push_numbers(&mut out, &halves(v.max_bytes));
        push_numbers(&mut out, &halves(v.first));
        push_numbers(&mut out, &[v.lent.work as u64]);
        push_numbers(&mut out, v.lent.text.map(|n| n as u64).as_slice());
        push_numbers(&mut out, &[v.lent.lengths as u64, v.cleared as u64]);
        push_numbers(&mut out, &[e.number.into(), e.at, e.count]);
        push_numbers(&mut out, e.length.as_slice());
        push_numbers(&mut out, &[e.done, e.last]);
        push_file(&mut out, &v.file);
        if v.lent.text.is_some() {
            v.units.iter().for_each(|unit| out.extend(&unit.text));
        }
        let lengths: Vec<u64> = v.units.iter().map(|unit| unit.text.len() as u64).collect();
        push_numbers(&mut out, &lengths);
    }
    out
}
