//! Vectors with many records, so that a place beyond the first few is named.

use super::{lone_blocks, Vectors};
use crate::file::block::{ADDRESS, FLAGS};
use crate::file::{build, Block, File};
use crate::record::Record;

/// Counts that come close to the longest vector.
const BLOCKS: u32 = 120;
const INSTRUCTIONS: usize = 250;

pub fn add(out: &mut Vectors) {
    many_blocks(out);
    one_block(out);
}

fn many_blocks(out: &mut Vectors) {
    let good = build(&lone_blocks(BLOCKS, 0x0800_0000, true, false));
    let last = good.blocks - 1;
    let changed = |at: usize, value| {
        let mut copy: File = good.clone();
        copy.set_word(at, value);
        copy
    };
    out.accept(&good);
    out.refuse(4, last, &changed(good.block_at(last, FLAGS), 5));
    out.refuse(5, last, &changed(good.block_at(last, ADDRESS), 0x0800_0000));
    out.refuse(7, last, &changed(good.instruction_at(last), 0x0e0f));
}

fn one_block(out: &mut Vectors) {
    let block = Block {
        address: 0x0300_0000,
        thumb: false,
        code: None,
        records: vec![Record::bx(14); INSTRUCTIONS],
    };
    let good = build(&[block]);
    out.accept(&good);
    for i in [100, INSTRUCTIONS - 1] {
        let mut copy = good.clone();
        copy.set_word(copy.instruction_at(i) + 12, 1 << 31);
        out.refuse(7, i, &copy);
    }
}
