//! Vectors for refusals 4 to 6: block records, key order, and the sum of the counts.

use super::{lone_blocks, places, turn_places, Vectors};
use crate::file::block::{ADDRESS, COUNT, FLAGS, OFFSET};
use crate::file::{build, build_with_spare, trailer, Block, File};
use crate::record::Record;

const COUNT_OF_BLOCKS: u32 = 5;

/// Five blocks of one instruction: of either set, with and without code bytes.
fn bases() -> [File; 4] {
    let of = |thumb, code| lone_blocks(COUNT_OF_BLOCKS, 0x0800_0000, thumb, code);
    [(false, false), (false, true), (true, false), (true, true)]
        .map(|(thumb, code)| build_with_spare(&of(thumb, code), &[0; 3]))
}

/// A copy with one word of block `i` set.
fn with(file: &File, i: usize, word: usize, value: u32) -> File {
    let mut copy = file.clone();
    copy.set_word(copy.block_at(i, word), value);
    copy
}

pub fn add(out: &mut Vectors) {
    for base in bases() {
        out.accept(&base);
        bits(out, &base);
        for i in places(base.blocks) {
            counts(out, &base, i);
            addresses(out, &base, i);
            ends(out, &base, i);
            offsets(out, &base, i);
        }
        for i in [1, 2, base.blocks - 1] {
            keys(out, &base, i);
        }
    }
    key_edges(out);
    top_of_memory(out);
    absent_code(out);
    sums(out);
}

fn size_of(file: &File, i: usize) -> u32 {
    if file.word(file.block_at(i, FLAGS)) & 1 != 0 {
        2
    } else {
        4
    }
}

/// Every bit that a record's flags, or the offset of absent bytes, may not have.
fn bits(out: &mut Vectors, base: &File) {
    let right = base.word(base.block_at(0, FLAGS));
    for bit in 2..32 {
        for i in turn_places(bit - 2, places(base.blocks)) {
            out.refuse(4, i, &with(base, i, FLAGS, right | 1 << bit));
        }
    }
    for bit in 0..32 {
        for i in turn_places(bit, places(base.blocks)) {
            if right & 2 == 0 {
                out.refuse(4, i, &with(base, i, OFFSET, 1 << bit));
            }
        }
    }
}

/// Counts up to 65,535 pass the record's own rules, and then fail to sum up.
fn counts(out: &mut Vectors, base: &File, i: usize) {
    for value in [0, 65_536, 65_537, 1 << 30, 1 << 31, u32::MAX] {
        out.refuse(4, i, &with(base, i, COUNT, value));
    }
    let present = base.word(base.block_at(i, FLAGS)) & 2 != 0;
    if !present {
        for value in [2, 256, 65_534, 65_535] {
            out.refuse(6, 0, &with(base, i, COUNT, value));
        }
    }
}

fn addresses(out: &mut Vectors, base: &File, i: usize) {
    let right = base.word(base.block_at(i, ADDRESS));
    let size = size_of(base, i);
    for more in 1..size {
        out.refuse(4, i, &with(base, i, ADDRESS, right + more));
    }
    out.accept(&with(base, i, ADDRESS, right + size));
}

/// Blocks that end past 2^32, and the last block as far up as it can be.
fn ends(out: &mut Vectors, base: &File, i: usize) {
    let size = size_of(base, i);
    let highest = 0u32.wrapping_sub(size);
    if i + 1 == base.blocks {
        out.accept(&with(base, i, ADDRESS, highest));
    }
    let high = with(base, i, ADDRESS, highest);
    for count in [2, 65_535] {
        out.refuse(4, i, &with(&high, i, COUNT, count));
    }
    let longest = with(base, i, COUNT, 65_535);
    let above = 0u32.wrapping_sub(65_534 * size);
    out.refuse(4, i, &with(&longest, i, ADDRESS, above));
}

fn offsets(out: &mut Vectors, base: &File, i: usize) {
    if base.word(base.block_at(i, FLAGS)) & 2 == 0 {
        return out.refuse(4, i, &with(base, i, OFFSET, u32::MAX));
    }
    let size = size_of(base, i);
    let highest = base.code_len as u32 - size;
    for offset in [0, 1, highest - 1, highest] {
        out.accept(&with(base, i, OFFSET, offset));
    }
    // From 2^32 less the size on, the end would wrap to the code area's front in 32 bits.
    let wraps = 0u32.wrapping_sub(size);
    let past = [
        highest + 1,
        highest + size,
        1 << 31,
        wraps,
        wraps + 1,
        u32::MAX,
    ];
    for offset in past {
        out.refuse(4, i, &with(base, i, OFFSET, offset));
    }
}

fn keys(out: &mut Vectors, base: &File, i: usize) {
    let last = base.word(base.block_at(i - 1, ADDRESS));
    let size = size_of(base, i);
    for address in [last, last - size, 0, last & 0xff00_0000] {
        out.refuse(5, i, &with(base, i, ADDRESS, address));
    }
    out.accept(&with(base, i, ADDRESS, last + size));
    // A fault of the record's own comes first.
    let odd = with(base, i, ADDRESS, last | 1);
    out.refuse(4, i, &odd);
}

/// Both instruction sets at one address, keys either side of 2^31, and a first key of 0.
fn key_edges(out: &mut Vectors) {
    for i in [1, 2, 4] {
        let mut blocks = lone_blocks(COUNT_OF_BLOCKS, 0x0800_0000, false, false);
        blocks[i].address = blocks[i - 1].address;
        blocks[i].thumb = true;
        out.accept(&build(&blocks));
        blocks[i - 1].thumb = true;
        out.refuse(5, i, &build(&blocks));
        blocks[i].thumb = false;
        out.refuse(5, i, &build(&blocks));
    }
    for thumb in [false, true] {
        let mut blocks = lone_blocks(3, 0x7fff_ff00, thumb, false);
        out.accept(&build(&blocks));
        blocks.swap(0, 1);
        out.refuse(5, 1, &build(&blocks));
        blocks.swap(1, 2);
        out.refuse(5, 2, &build(&blocks));
        out.accept(&build(&lone_blocks(3, 0, thumb, false)));
    }
}

/// Blocks that end exactly at 2^32, and one size further.
fn top_of_memory(out: &mut Vectors) {
    for (thumb, count) in [(false, 1), (true, 1), (false, 7), (true, 7)] {
        let size = if thumb { 2 } else { 4 };
        let highest = 0u32.wrapping_sub(size * count);
        let blocks = |address| {
            let mut blocks = lone_blocks(2, 0x0800_0000, false, false);
            blocks.push(Block {
                address,
                thumb,
                code: None,
                records: vec![Record::bx(0); count as usize],
            });
            build(&blocks)
        };
        out.accept(&blocks(highest));
        if count > 1 {
            out.refuse(4, 2, &blocks(highest + size));
            out.refuse(4, 2, &blocks(0u32.wrapping_sub(size)));
        }
        // A block of the longest count ends at 2^32 too; its instructions are not there.
        let longest = with(&blocks(highest), 2, COUNT, 65_535);
        let address = 0u32.wrapping_sub(65_535 * size);
        out.refuse(6, 0, &with(&longest, 2, ADDRESS, address));
        out.refuse(4, 2, &with(&longest, 2, ADDRESS, address + size));
    }
}

/// Code bytes said to be present where the file has none, or too few; and said to be absent.
fn absent_code(out: &mut Vectors) {
    let [arm, arm_present, thumb, _] = &bases();
    for i in places(COUNT_OF_BLOCKS as usize) {
        for (thumb, base) in [(0, arm), (1, thumb)] {
            let none = build(&lone_blocks(COUNT_OF_BLOCKS, 0x200, thumb == 1, false));
            out.refuse(4, i, &with(&none, i, FLAGS, 2 | thumb));
            // Three spare bytes hold a Thumb instruction, and no ARM instruction.
            let claimed = with(base, i, FLAGS, 2 | thumb);
            match thumb {
                1 => out.accept(&claimed),
                _ => out.refuse(4, i, &claimed),
            }
        }
        let absent = with(arm_present, i, FLAGS, 0);
        match i {
            0 => out.accept(&absent),
            _ => out.refuse(4, i, &absent),
        }
        out.accept(&with(&absent, i, OFFSET, 0));
    }
}

fn sums(out: &mut Vectors) {
    let block = |n: u32, count: usize| Block {
        address: 0x0200_0000 + 0x40 * n,
        thumb: n % 2 == 1,
        code: None,
        records: vec![Record::bx(3); count],
    };
    let counts = [3, 1, 4, 1, 5];
    let blocks: Vec<_> = (0..).zip(counts).map(|(n, c)| block(n, c)).collect();
    let base = build(&blocks);
    out.accept(&base);
    for i in places(base.blocks) {
        let right = base.word(base.block_at(i, COUNT));
        for value in [right + 1, right - 1, 1, 65_535] {
            out.refuse(6, 0, &with(&base, i, COUNT, value));
        }
    }
    // One count too large and one too small by as much sum up.
    let moved = with(&base, 0, COUNT, 2);
    out.accept(&with(&moved, 4, COUNT, 6));
    // Records with no block, and blocks with no record.
    out.refuse(6, 0, &relabelled(&build(&[block(0, 1)]), 0, 2));
    out.refuse(6, 0, &relabelled(&build(&[block(0, 3)]), 0, 4));
    out.refuse(6, 0, &with(&build(&[block(0, 0)]), 0, COUNT, 1));
}

/// The file with its records dealt out anew: so many blocks and instructions, code bytes from
/// what is left.
fn relabelled(file: &File, blocks: u32, instructions: u32) -> File {
    let mut copy = file.clone();
    let to_blocks = 32 + 16 * blocks;
    let to_instructions = to_blocks + 16 * instructions;
    let code = copy.bytes.len() as u32 - to_instructions;
    let changed = [
        (trailer::BLOCKS_BACK, to_blocks),
        (trailer::BLOCKS, blocks),
        (trailer::INSTRUCTIONS_BACK, to_instructions),
        (trailer::INSTRUCTIONS, instructions),
        (trailer::CODE, code),
    ];
    for (word, value) in changed {
        copy.set_word(copy.trailer_at(word), value);
    }
    copy
}
