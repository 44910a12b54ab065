//! Vectors for the call that writes a unit, with answers kept from another size or another file:
//! those that mislead about none of the three values, and those that do.

use super::grouping::arm;
use super::units::{emitted, thumb, Emitted};
use super::write::{vector, WriteVector};
use crate::file::{build, File};
use crate::original::Program;
use crate::record::{Operand, Record, Shifted};
use crate::units::Told;

/// What was told of a unit elsewhere, with a text that the unit here just fills, or lacks so much.
fn kept(told: Told, file: &Emitted, short: usize) -> WriteVector {
    let here = file.units.get(told.unit as usize);
    let text = here.map_or(told.length as usize, |unit| unit.text.len());
    vector(file, told, [file.work(), text - short])
}

/// As `kept`; nothing differs, so that the unit is written.
fn written(told: Told, file: &Emitted) -> WriteVector {
    let vector = kept(told, file, 0);
    assert_eq!(vector.expected.number, 0, "{told:?}");
    vector
}

/// Of sizes 0 and 1, which give the same units; of one that is met exactly and those beside it; and
/// of the largest, which gives one unit.
pub(super) fn from_other_sizes(sizes: &[Emitted; 5], turn: usize) -> Vec<WriteVector> {
    let [at_0, at_1, at_exact, above, at_most] = sizes;
    let count = at_0.units.len();
    let [other, last] = [turn % count, count - 1];
    vec![
        written(at_1.told(other), at_0),
        kept(at_0.told(other), at_1, 1),
        kept(at_0.told(0), at_exact, 0),
        kept(at_exact.told(0), at_0, 0),
        kept(at_exact.told(0), above, 0),
        kept(above.told(0), at_exact, 0),
        kept(at_most.told(0), at_0, 0),
        kept(at_0.told(last), at_most, 0),
    ]
}

/// Two files, a size for each, and the number of a unit of both.
struct Pair {
    files: [File; 2],
    sizes: [u64; 2],
    unit: usize,
}

impl Pair {
    fn new(files: [File; 2], sizes: [u64; 2], unit: usize) -> Pair {
        Pair { files, sizes, unit }
    }

    /// Both files with their units.
    fn emitted(&self, program: &Program) -> [Emitted<'_>; 2] {
        [0, 1].map(|n| emitted(program, &self.files[n].bytes, &[self.sizes[n]]).remove(0))
    }
}

/// Two blocks, each alone in its group.
fn two(address: u32, register: u8, cost: u16) -> File {
    let lone = |address| arm(address, &[Record::bx(register).with_cost(cost)]);
    build(&[lone(address), lone(0x0800_0400)])
}

/// Units that have the same values and another text: by another address, register, cost, or hash of
/// the code bytes.
fn alike() -> [Pair; 4] {
    let sample = || two(0x0800_0000, 14, 3);
    let guarded = |code: [u8; 2]| build(&[thumb(0x0200_0100, Some(&code), &[Record::bx(14)])]);
    let hashed = [guarded([0x70, 0x47]), guarded([0x71, 0x47])];
    [
        Pair::new([sample(), two(0x0800_0100, 14, 3)], [0, 0], 0),
        Pair::new([sample(), two(0x0800_0000, 12, 3)], [0, 0], 1),
        Pair::new([sample(), two(0x0800_0000, 14, 4)], [u64::MAX; 2], 0),
        Pair::new(hashed, [0, 0], 0),
    ]
}

/// Units that differ in one value: length, blocks done, last mark.
fn unlike() -> [Pair; 3] {
    let lone = |address, cost| arm(address, &[Record::bx(14).with_cost(cost)]);
    let length = [two(0x0800_0000, 14, 3), two(0x0800_0000, 14, 30)];
    // Unit 1 has the same block, after one block or two.
    let first = arm(0x0800_0000, &[Record::branch(false, 0x0800_0004)]);
    let [second, same] = [lone(0x0800_0004, 3), lone(0x0800_0100, 3)];
    let done = [
        build(&[lone(0x0800_0000, 3), same.clone()]),
        build(&[first, second, same]),
    ];
    // What the table adds to the one, three instructions add to the other.
    let last = [
        build(&[lone(0x0800_0000, 100)]),
        build(&[arm(0x0800_0000, &moves_and_bx())]),
    ];
    [
        Pair::new(length, [0, 0], 0),
        Pair::new(done, [0, 0], 1),
        Pair::new(last, [u64::MAX, 0], 0),
    ]
}

/// Two moves of a value and one of a register, and the way out.
fn moves_and_bx() -> [Record; 4] {
    let mov = |operand| Record::alu(13, false, 0, 0, operand);
    let value = mov(Operand::Value { value: 10, ror: 0 });
    let register = mov(Operand::Register(Shifted::ByAmount {
        rm: 1,
        kind: 0,
        amount: 0,
    }));
    [value, value, register, Record::bx(14).with_cost(3)]
}

/// Each of two files that are alike with what was told of the other: it writes its own text.
fn from_files_alike(program: &Program, pair: &Pair) -> Vec<WriteVector> {
    let [one, other] = pair.emitted(program);
    let text = |file: &Emitted| file.units[pair.unit].text.clone();
    assert!(text(&one) != text(&other), "the texts are the same");
    let [told, others] = [&one, &other].map(|file| file.told(pair.unit));
    vec![
        written(told, &other),
        written(others, &one),
        kept(told, &other, 1),
        kept(others, &one, 1),
    ]
}

/// Each of two files that differ in one value, by its number, with what was told of the other.
fn from_files_unlike(program: &Program, pair: &Pair, value: usize) -> Vec<WriteVector> {
    let [one, other] = pair.emitted(program);
    let [told, others] = [&one, &other].map(|file| file.told(pair.unit));
    let values = |told: Told| [told.length, told.done, told.last];
    let differ = |n: usize| values(told)[n] != values(others)[n];
    let as_meant = (0..3).all(|n| differ(n) == (n == value));
    assert!(as_meant, "{told:?} and {others:?}");
    vec![kept(told, &other, 0), kept(others, &one, 0)]
}

pub(super) fn from_other_files(program: &Program) -> Vec<WriteVector> {
    let alike = alike();
    let alike = alike
        .iter()
        .flat_map(|pair| from_files_alike(program, pair));
    let unlike = unlike();
    let unlike = unlike.iter().zip(0..);
    let unlike = unlike.flat_map(|(pair, value)| from_files_unlike(program, pair, value));
    alike.chain(unlike).collect()
}
