//! The files that vectors of the calls for sentences are made on: blocks of one record with the
//! reason that it must have, and blocks of several.

mod records;

use crate::file::{build, Block, File};
use crate::generate::shells::Shells;
use crate::reasons::Reason;
use crate::record::{mem, Offset, Record};
use records::{add, add_pc, branch, bx, high, low, mrs, pop};
use records::{BIOS, EQ, NV, RAM, ROM};

/// Pages of ROM's mirror, which has a region of its own, and one with the region of ROM.
const MIRROR: u32 = 0x09;
const LIKE_ROM: u32 = 0x18;

/// Where the first block of a page is: most digits of an address are letters.
const OFFSET: u32 = 0x00fe_a000;

/// A block at any place, with code bytes where they are asked for.
fn at(address: u32, thumb: bool, code: bool, records: &[Record]) -> Block {
    let mut block = Block {
        address,
        thumb,
        code: None,
        records: records.to_vec(),
    };
    block.code = code.then(|| vec![0xaa; block.byte_len()]);
    block
}

/// Block `n` of some: ARM and Thumb by turns, with code bytes where they are asked for.
fn block(n: usize, page: u32, code: bool, records: &[Record]) -> Block {
    let address = (page << 24 | OFFSET) + 0x40 * n as u32;
    at(address, n % 2 == 1, code, records)
}

/// A block for each record that is named, alone in it, with its reason; in RAM with code bytes.
pub(super) fn named() -> Vec<(Block, Option<Reason>)> {
    let named = records::named().into_iter().enumerate();
    let named = named.map(|(n, (page, record, reason))| {
        let block = block(n, page, page == RAM, &[record]);
        (block, reason)
    });
    named.collect()
}

/// Under every condition an exit or a branch, and a shell after it.
pub(super) fn conditions() -> Vec<Block> {
    let exits = [bx(), pop(), branch()];
    let all = exits.map(|exit| (0..16).map(move |cond| [exit.with_cond(cond), mrs()]));
    let all = all.into_iter().flatten().enumerate();
    all.map(|(n, records)| block(n, ROM, false, &records))
        .collect()
}

/// BIOS, RAM, ROM and what lies between and behind them, and pages with the regions of these.
const PAGES: [u32; 16] = [
    0x00, 0x01, 0x02, 0x03, 0x07, 0x08, 0x09, 0x0d, 0x0f, 0x10, 0x11, 0x18, 0x80, 0x88, 0xf0, 0xff,
];

/// In every page a shell, an exit, and a shell after it, without code bytes and with them.
pub(super) fn regions() -> Vec<Block> {
    let pages = PAGES
        .into_iter()
        .flat_map(|page| [(page, false), (page, true)]);
    let exit = |n: usize| if n % 4 < 2 { bx() } else { pop() };
    let blocks = pages.enumerate();
    let blocks = blocks.map(|(n, (page, code))| {
        // By fours, so that either set comes with and without code bytes.
        block(n + n / 2, page, code, &[mrs(), exit(n), add_pc()])
    });
    blocks.collect()
}

/// Halves in pairs and alone, at the start, in the middle and at the end.
pub(super) fn halves() -> Vec<Block> {
    let (h, l, x, n) = (high(), low(), mrs(), add());
    let (never, equal) = (high().with_cond(NV), low().with_cond(EQ));
    let lists: [&[Record]; 20] = [
        &[high().with_cond(EQ), equal, x],
        &[h, l],
        &[h, l, x],
        &[x, h, l],
        &[n, h, l, x, x],
        &[never, equal, x],
        &[h],
        &[l],
        &[x, h],
        &[n, l],
        &[h, x],
        &[l, n],
        &[h, n, l],
        &[h, h, l, x],
        &[h, l, l],
        &[l, h],
        &[l, h, l, x],
        &[h, h],
        &[l, l],
        &[h, x, l, h, l],
    ];
    let blocks = lists.into_iter().enumerate();
    blocks
        .map(|(n, list)| block(n + n / 2, ROM, false, list))
        .collect()
}

/// Two blocks that touch, the first half of a pair in one and the other in the next.
pub(super) fn apart() -> File {
    let first = block(0, ROM, false, &[mrs(), high()]);
    let mut second = block(0, ROM, false, &[low(), mrs()]);
    second.address += first.byte_len() as u32;
    build(&[first, second])
}

/// An exit of each kind with two shells after it, in ROM, BIOS and RAM; and what leaves a block
/// through the interpreter or under a condition, which drops nothing.
pub(super) fn rests() -> Vec<Block> {
    let load = Record::mem(mem::LOAD, 2, 15, 0, Offset::Value(0));
    let exits: [&[Record]; 4] = [&[branch()], &[bx()], &[pop()], &[high(), low()]];
    let others: [&[Record]; 6] = [
        &[add_pc()],
        &[load],
        &[Record::swi([0; 12])],
        &[Record::undefined([0; 12])],
        &[Record::block_mem(0x05, 0, 0x8000)],
        &[branch().with_cond(NV)],
    ];
    let pages = [ROM, BIOS, RAM].into_iter();
    let exits = pages.flat_map(|page| exits.map(|exit| (page, exit)));
    let all = exits.chain(others.map(|other| (ROM, other)));
    let blocks = all.enumerate().map(|(n, (page, exit))| {
        let records = [exit, &[mrs(), add_pc()]].concat();
        block(n + n / 4, page, page == RAM, &records)
    });
    blocks.collect()
}

/// Blocks with shells in the middle, in a rest that is dropped and nowhere, and at the end none.
pub(super) fn walk() -> File {
    build(&[
        block(
            0,
            ROM,
            false,
            &[add(), mrs(), add(), add_pc(), branch(), mrs(), add_pc()],
        ),
        block(1, ROM, false, &[add(), add()]),
        block(2, MIRROR, false, &[mrs(), mrs()]),
        block(3, MIRROR, true, &[bx().with_cond(EQ), pop(), mrs()]),
        block(4, LIKE_ROM, false, &[add(), bx(), mrs()]),
    ])
}

/// Lines of 45, 22, 45 and 22 bytes, with a native instruction between the second and the third.
pub(super) fn lines() -> File {
    let [add_pc, bx] = [add_pc(), bx()];
    build(&[block(0, BIOS, false, &[add_pc, bx, add(), add_pc, bx])])
}

/// The first and the last addresses there are, and two blocks at one of them.
pub(super) fn ends() -> File {
    build(&[
        at(0, false, false, &[mrs(), mrs()]),
        at(0, true, false, &[bx(), low()]),
        at(0x89ab_cdee, true, true, &[mrs(), mrs(), mrs()]),
        at(0xffff_fff8, false, true, &[add_pc(), mrs()]),
        at(0xffff_fffe, true, true, &[low()]),
    ])
}

/// Blocks that go over the end of a page: the region is that of their first instruction.
pub(super) fn over_pages() -> File {
    let exits = [mrs(), mrs(), bx(), mrs()];
    build(&[
        at(0x00ff_fffc, false, false, &exits),
        at(0x07ff_fffe, true, false, &exits),
        at(0x08ff_fffe, true, false, &exits),
        at(0x0fff_fffc, false, true, &exits),
        at(0x10ff_fffe, true, false, &exits),
    ])
}

/// As many shells as a vector's file has room for.
pub(super) fn long() -> File {
    let records: Vec<Record> = (0..252)
        .map(|n| match n % 3 {
            0 => mrs(),
            1 => Record::block_mem(0, n as u8 % 15, 0),
            _ => add_pc(),
        })
        .collect();
    build(&[block(0, ROM, false, &records)])
}

/// Generated files that are short and have some shells.
pub(super) fn generated(count: usize) -> impl Iterator<Item = File> {
    let files = (0..).map(|seed| Shells { seed }.file());
    files
        .filter(|file| file.bytes.len() <= 400 && file.instructions > 6)
        .take(count)
}
