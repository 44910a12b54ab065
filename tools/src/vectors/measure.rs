//! Vectors for the call that measures a unit. What it tells is that of the original's unit, made as
//! they are written.

use super::grouping::{cut_files, damaged_files};
use super::units::{at_sizes, emitted, files, form_files, Emitted};
use super::{halves, push_file, push_numbers, AMPLE_WORK, MOST_WORK};
use crate::original::Program;
use crate::units::{measured, MeasureNumbers};

/// A file, what is asked of it, and how many work numbers are lent, with how many of them become 0
/// and the answer.
pub struct MeasureVector {
    pub max_bytes: u64,
    pub unit: u64,
    pub work_len: usize,
    pub cleared: usize,
    pub expected: MeasureNumbers,
    pub file: Vec<u8>,
}

fn vector(file: &Emitted, unit: u64, work_len: usize) -> MeasureVector {
    assert!(work_len <= MOST_WORK);
    let measured = measured(file.checked, &file.units, unit, work_len);
    MeasureVector {
        max_bytes: file.max_bytes,
        unit,
        work_len,
        cleared: measured.cleared,
        expected: measured.numbers,
        file: file.file.to_vec(),
    }
}

/// Every unit, with as many work numbers as it needs, and one of them with some to spare.
fn units_of(file: &Emitted, turn: usize) -> Vec<MeasureVector> {
    let (count, work) = (file.units.len(), file.work());
    let all = (0..count).map(|k| vector(file, k as u64, work));
    let spare = vector(file, (turn % count) as u64, work + 1 + turn % 3);
    all.chain([spare]).collect()
}

/// Numbers that there is no unit for, some of which would name one by their low 32 bits alone; and
/// too few work numbers, which come before them.
fn refusals(file: &Emitted) -> Vec<MeasureVector> {
    let (count, work) = (file.units.len() as u64, file.work());
    let mut out = vec![
        vector(file, count, work),
        vector(file, 1 << 32, work + 1),
        vector(file, (1 << 32) + count - 1, work),
        vector(file, u64::MAX, work),
    ];
    if work > 0 {
        out.push(vector(file, 0, work - 1));
        out.push(vector(file, count - 1, work - 1));
        out.push(vector(file, count, 0));
    }
    out
}

/// Vectors at sizes 0, 1, one that is met exactly, that plus 1 and the largest. The original's
/// program emits the units.
pub fn measures(program: &Program) -> Vec<MeasureVector> {
    let mut out = vec![];
    for (turn, file) in files() {
        let sizes = at_sizes(program, &file.bytes, turn);
        for (n, file) in sizes.iter().enumerate() {
            out.extend(units_of(file, turn + n));
        }
        let [at_0, _, at_exact, _, at_most] = &sizes;
        for file in [at_0, at_exact, at_most] {
            out.extend(refusals(file));
        }
    }
    for bytes in form_files() {
        for file in emitted(program, &bytes, &[u64::MAX]) {
            out.push(vector(&file, 0, file.work()));
        }
    }
    // Files that are refused, with enough lent, and with nothing for a unit that no file has.
    for copy in damaged_files().chain(cut_files()) {
        for file in emitted(program, &copy, &[u64::MAX]) {
            out.push(vector(&file, 0, AMPLE_WORK));
            out.push(vector(&file, u64::MAX, 0));
        }
    }
    out
}

/// A count, then for each vector max_bytes and the unit's number, the low half of each before the
/// high one; how many numbers are lent as work and how many of them become 0; the answer: the
/// refusal's number, its i, the unit's number as before, length, blocks done and last mark; and the
/// length of the file and its bytes.
pub fn encode_measures(vectors: &[MeasureVector]) -> Vec<u8> {
    let mut out = vec![];
    push_numbers(&mut out, &[vectors.len() as u64]);
    for v in vectors {
        let e = &v.expected;
        push_numbers(&mut out, &halves(v.max_bytes));
        push_numbers(&mut out, &halves(v.unit));
        push_numbers(&mut out, &[v.work_len as u64, v.cleared as u64]);
        push_numbers(&mut out, &[e.number.into(), e.at]);
        push_numbers(&mut out, &halves(e.told.unit));
        push_numbers(&mut out, &[e.told.length, e.told.done, e.told.last]);
        push_file(&mut out, &v.file);
    }
    out
}
