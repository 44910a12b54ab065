//! Vectors for the call that writes a unit. Their texts are the original's, made as they are
//! written.

use super::grouping::{cut_files, damaged_files};
use super::kept;
use super::units::{at_sizes, emitted, files, form_files, Emitted};
use super::{halves, push_file, push_numbers, AMPLE_WORK, LONGEST_TEXT, MOST_WORK};
use crate::misled::{far, near};
use crate::original::Program;
use crate::units::{told, written, Told, WriteNumbers};

/// A file, what was told of its unit, and how many numbers and bytes are lent, with how many work
/// numbers become 0, the answer, and the text's front, empty on refusal.
pub struct WriteVector {
    pub max_bytes: u64,
    pub told: Told,
    pub work_len: usize,
    pub text_len: usize,
    pub cleared: usize,
    pub expected: WriteNumbers,
    pub text: Vec<u8>,
    pub file: Vec<u8>,
}

pub(super) fn vector(file: &Emitted, told: Told, lent: [usize; 2]) -> WriteVector {
    assert!(lent[0] <= MOST_WORK && lent[1] <= LONGEST_TEXT);
    let written = written(file.checked, &file.units, told, lent);
    WriteVector {
        max_bytes: file.max_bytes,
        told,
        work_len: lent[0],
        text_len: lent[1],
        cleared: written.cleared,
        expected: written.numbers,
        text: written.front.to_vec(),
        file: file.file.to_vec(),
    }
}

/// One unit by what is told of it, with buffers that are exactly full, or with so much to spare.
fn one(file: &Emitted, k: usize, spare: [usize; 2]) -> WriteVector {
    let told = file.told(k);
    let lent = [file.work() + spare[0], told.length as usize + spare[1]];
    vector(file, told, lent)
}

/// Units by what is told of them, at sizes 0, 1, one that is met exactly, that plus 1, and the
/// largest.
fn units_of(
    [at_0, at_1, at_exact, above, at_most]: &[Emitted; 5],
    turn: usize,
) -> Vec<WriteVector> {
    let each = |file: &Emitted, spare| -> Vec<WriteVector> {
        let units = 0..file.units.len();
        units.map(|k| one(file, k, spare)).collect()
    };
    let mut out = each(at_0, [0, 0]);
    out.push(one(at_1, turn % at_1.units.len(), [2, 3]));
    out.extend(each(at_exact, [turn % 2, 0]));
    out.push(one(above, 0, [0, turn % 3]));
    out.push(one(at_most, 0, [0, 0]));
    out
}

/// Short buffers, and numbers that there is no unit for, which come before a short text and after
/// short work numbers, whatever is told beside the number.
fn refusals(file: &Emitted) -> Vec<WriteVector> {
    let count = file.units.len() as u64;
    let [first, last] = [0, file.units.len() - 1].map(|k| file.told(k));
    let right = |unit| Told { unit, ..last };
    let wrong = |unit| Told {
        unit,
        length: u64::MAX,
        done: 0,
        last: 2,
    };
    let (work, text) = (file.work(), last.length as usize);
    let mut out = vec![
        vector(file, last, [work, text - 1]),
        vector(file, first, [work + 3, 0]),
        vector(file, right(count), [work, text]),
        vector(file, right(1 << 32), [work + 1, text]),
        vector(file, right((1 << 32) + count - 1), [work, text]),
        vector(file, wrong(count), [work, text]),
        vector(file, wrong(u64::MAX), [work, 0]),
    ];
    if work > 0 {
        out.push(vector(file, first, [work - 1, first.length as usize]));
        out.push(vector(file, last, [work - 1, text - 1]));
        out.push(vector(file, wrong(0), [work - 1, text]));
        out.push(vector(file, wrong(count), [0, 0]));
    }
    out
}

/// A unit by values that are not its own, with texts that it just fills, with room to spare, a byte
/// short and empty in turns: a short text comes after them.
fn misled(file: &Emitted, values: Vec<Told>, turn: usize) -> Vec<WriteVector> {
    let misled = values.into_iter().zip(turn..).map(|(told, n)| {
        let text = file.units[told.unit as usize].text.len();
        let text = [text, text + 3, text - 1, 0][n % 4];
        vector(file, told, [file.work() + n / 4 % 2, text])
    });
    let misled: Vec<WriteVector> = misled.collect();
    assert!(misled.iter().all(|v| v.expected.number == 11));
    misled
}

/// What is told of each unit's neighbour, under the unit's own number; the last one's is the first.
fn of_neighbours(file: &Emitted) -> Vec<Told> {
    let count = file.units.len();
    let told = (0..count).map(|k| Told {
        unit: k as u64,
        ..file.told((k + 1) % count)
    });
    // A unit that is alone has no neighbour.
    told.filter(|_| count > 1).collect()
}

/// What refuses and misleads at three sizes, and what was told at another.
fn mistakes(sizes: &[Emitted; 5], turn: usize) -> Vec<WriteVector> {
    let [at_0, _, at_exact, _, at_most] = sizes;
    let mut out = vec![];
    for (n, file) in [at_0, at_exact, at_most].into_iter().enumerate() {
        out.extend(refusals(file));
        let told = file.told((turn + n) % file.units.len());
        out.extend(misled(file, near(told), turn));
        if turn % 3 == n {
            out.extend(misled(file, far(told).to_vec(), turn));
        }
        out.extend(misled(file, of_neighbours(file), turn));
    }
    out.extend(kept::from_other_sizes(sizes, turn));
    out
}

/// Files that are refused, with enough lent, and with nothing for a unit that no file has.
fn damaged(program: &Program) -> Vec<WriteVector> {
    let none = Told {
        unit: u64::MAX,
        length: u64::MAX,
        done: u64::MAX,
        last: u64::MAX,
    };
    let mut out = vec![];
    for copy in damaged_files().chain(cut_files()) {
        for file in emitted(program, &copy, &[u64::MAX]) {
            // Of a refused file nothing is told: the numbers are then 0.
            let told = told(&file.units, 0).unwrap_or_default();
            out.push(vector(&file, told, [AMPLE_WORK, LONGEST_TEXT]));
            out.push(vector(&file, none, [0, 0]));
        }
    }
    out
}

/// The original's program emits the texts.
pub fn writes(program: &Program) -> Vec<WriteVector> {
    let mut out = vec![];
    for (turn, file) in files() {
        let sizes = at_sizes(program, &file.bytes, turn);
        out.extend(units_of(&sizes, turn));
        out.extend(mistakes(&sizes, turn));
    }
    for bytes in form_files() {
        for file in emitted(program, &bytes, &[u64::MAX]) {
            out.push(one(&file, 0, [0, 0]));
        }
    }
    out.extend(kept::from_other_files(program));
    out.extend(damaged(program));
    out
}

/// A count, then for each vector max_bytes and what was told: the unit's number, its length, the
/// blocks done and the last mark, the low half of each before the high one; how many numbers are
/// lent as work, how many bytes for the text and how many work numbers become 0; the answer: the
/// refusal's number, its i, and how many bytes stand in the text's front; the length of the file,
/// its bytes, and those of the text's front.
pub fn encode_writes(vectors: &[WriteVector]) -> Vec<u8> {
    let mut out = vec![];
    push_numbers(&mut out, &[vectors.len() as u64]);
    for v in vectors {
        let Told {
            unit,
            length,
            done,
            last,
        } = v.told;
        for number in [v.max_bytes, unit, length, done, last] {
            push_numbers(&mut out, &halves(number));
        }
        let lent = [v.work_len, v.text_len, v.cleared];
        push_numbers(&mut out, &lent.map(|n| n as u64));
        let e = &v.expected;
        push_numbers(&mut out, &[e.number.into(), e.at, v.text.len() as u64]);
        push_file(&mut out, &v.file);
        out.extend_from_slice(&v.text);
    }
    out
}
