//! The files that vectors of the calls for units are made on, and their units: the original's, made
//! as the vectors are written.

use super::grouping::{arm, named_files, short_files};
use crate::check::{check, Accepted, Refused};
use crate::file::{build, Block, File};
use crate::generate::forms::{self, Forms};
use crate::original::units::Emitter;
use crate::original::Program;
use crate::record::{block_mem, Record};
use crate::units::{reached, told, Told, Unit};

/// Generated files of either sort.
const FILES: usize = 3;

/// A file with its units at one size.
pub(super) struct Emitted<'a> {
    pub(super) file: &'a [u8],
    pub(super) checked: Result<Accepted, Refused>,
    pub(super) max_bytes: u64,
    pub(super) units: Vec<Unit>,
}

impl Emitted<'_> {
    /// Work numbers that a call needs; none where the file is refused.
    pub(super) fn work(&self) -> usize {
        self.checked.map_or(0, |counts| 4 * counts.blocks as usize)
    }

    /// What must be told of unit `k`, which there is.
    pub(super) fn told(&self, k: usize) -> Told {
        told(&self.units, k as u64).expect("a unit")
    }
}

/// The file's units at each of these sizes; none where it is refused.
pub(super) fn emitted<'f>(program: &Program, file: &'f [u8], sizes: &[u64]) -> Vec<Emitted<'f>> {
    let checked = check(file);
    let mut emitter = checked.ok().map(|_| Emitter::start(program, &[file]));
    let mut units = |size| emitter.as_mut().map_or(vec![], |e| e.units(0, size));
    let emitted = sizes.iter().map(|&max_bytes| Emitted {
        file,
        checked,
        max_bytes,
        units: units(max_bytes),
    });
    emitted.collect()
}

/// The file's units at sizes 0, 1, one that the first unit meets exactly, that plus 1, and the
/// largest.
pub(super) fn at_sizes<'f>(program: &Program, file: &'f [u8], turn: usize) -> [Emitted<'f>; 5] {
    let exact = exact(program, file, turn);
    let emitted = emitted(program, file, &[0, 1, exact, exact + 1, u64::MAX]);
    emitted
        .try_into()
        .unwrap_or_else(|_| unreachable!("five sizes"))
}

/// A size that the first unit meets exactly after one of its groups, but for the last where there
/// is another, so that the next unit has groups too.
fn exact(program: &Program, file: &[u8], turn: usize) -> u64 {
    let ends = emitted(program, file, &[0, u64::MAX]);
    let reached = reached(&ends[0].units, &ends[1].units[0]);
    match reached.len() {
        0 => ends[1].units[0].text.len() as u64,
        groups => reached[turn % groups.saturating_sub(1).max(1)] as u64,
    }
}

pub(super) fn thumb(address: u32, code: Option<&[u8]>, records: &[Record]) -> Block {
    Block {
        thumb: true,
        code: code.map(<[u8]>::to_vec),
        ..arm(address, records)
    }
}

/// Files made for what they show; each has few blocks.
fn named() -> Vec<File> {
    let mrs = Record::mrs([0; 12]);
    let pop = block_mem::LOAD | block_mem::UP | block_mem::WRITEBACK;
    let pop = Record::block_mem(pop, 13, 0x8011).with_cost(4);
    let lone = |address| arm(address, &[Record::bx(14).with_cost(3)]);
    let halves = [Record::thumb_bl_high(0x0200_0104), Record::thumb_bl_low(3)];
    let mut files = named_files();
    files.extend([
        build(&[lone(0x0800_0000), lone(0x0800_0100)]),
        // A goto ahead though the branch stands after its target, and one back through the gate.
        build(&[
            arm(0x0800_0100, &[mrs, mrs, Record::branch(false, 0x0800_0104)]),
            arm(0x0800_0104, &[Record::branch(true, 0x0800_0100)]),
        ]),
        // A guarded pair, and a block without code bytes.
        build(&[
            thumb(0x0200_0100, Some(&[0x00, 0xf0, 0x03, 0xf8]), &halves),
            arm(0x0200_0104, &[Record::swi([0; 12])]),
        ]),
        // Exits of BIOS go through the interpreter, and the same ones of ROM do not.
        build(&[
            arm(0x0000_0000, &[Record::bx(14)]),
            arm(0x0000_0004, &[pop]),
            arm(0x0800_0000, &[pop]),
        ]),
        // Halves of a pair at the end, where the first goes on and the other does not.
        build(&[
            thumb(
                0x0800_0000,
                None,
                &[mrs, Record::thumb_bl_high(0x0800_0000)],
            ),
            thumb(0x0800_0004, None, &[Record::thumb_bl_low(9)]),
        ]),
        saved_bases(),
    ]);
    files
}

/// Stores of a base that is not the lowest listed, without writeback and with it, and of one that
/// is, down and up.
fn saved_bases() -> File {
    let store = |flags, rn, rlist| Record::block_mem(flags, rn, rlist).with_cost(2);
    let [down_before, up, back] = [block_mem::PRE, block_mem::UP, block_mem::WRITEBACK];
    let first = [store(up, 1, 0b11), store(up | back, 1, 0b11)];
    let last = [
        store(down_before | back, 4, 0x31),
        store(up | back, 1, 0b110),
    ];
    build(&[
        arm(0x0800_0000, &first),
        arm(0x0800_0008, &[store(down_before, 4, 0x8031).with_cond(1)]),
        arm(0x0800_000c, &last),
    ])
}

/// Those files, and generated ones of either sort, each with a turn.
pub(super) fn files() -> Vec<(usize, File)> {
    let several = |file: &File| (3..=6).contains(&file.blocks) && file.instructions < 12;
    let short: Vec<File> = short_files().filter(several).collect();
    let last = short.iter().rev().take(FILES);
    let either = short.iter().take(FILES).chain(last);
    let either = either.cloned().enumerate();
    named().into_iter().enumerate().chain(either).collect()
}

/// Files with every kind and form, in either set.
pub(super) fn form_files() -> impl Iterator<Item = Vec<u8>> {
    let parts = (0..forms::parts()).flat_map(|part| [false, true].map(|thumb| (part, thumb)));
    parts.map(|(part, thumb)| {
        let forms = Forms {
            part,
            thumb,
            conditional: thumb,
            turn: thumb as usize,
        };
        forms.file().bytes
    })
}
