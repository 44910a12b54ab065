//! A file with far more text than others of its size: nearly all of its instructions are block
//! transfers of many registers.

use super::MOST_BLOCKS;
use crate::file::{self, Block, File};
use crate::record::{block_mem, Record};

/// Instructions of a block: as many as the most blocks may have together.
const LENGTH: usize = 16;

/// Blocks that lead on to one another, so that they are grouped.
const RUN: usize = 16;

const START: u32 = 0x0800_0000;

/// ARM blocks in ROM that touch one another, in runs.
#[derive(Clone, Copy, Debug)]
pub struct Transfers {
    pub blocks: usize,
}

impl Transfers {
    pub fn most() -> Transfers {
        Transfers {
            blocks: MOST_BLOCKS,
        }
    }

    pub fn blocks(&self) -> Vec<Block> {
        (0..self.blocks).map(block).collect()
    }

    pub fn file(&self) -> File {
        file::build(&self.blocks())
    }
}

fn block(i: usize) -> Block {
    let size = 4 * LENGTH as u32;
    let address = START + size * i as u32;
    let own = (0..LENGTH - 1).map(|n| transfer(i + n));
    let closing = match (i + 1) % RUN {
        0 => Record::bx(14),
        _ => Record::branch(false, address + size),
    };
    Block {
        address,
        thumb: false,
        code: None,
        records: own.chain([closing]).collect(),
    }
}

/// All registers but PC and the base, in all directions and under all conditions but the one that
/// always holds, in turn.
fn transfer(n: usize) -> Record {
    let turn = n as u8;
    let direction = turn & (block_mem::LOAD | block_mem::PRE | block_mem::UP);
    let base = turn % 13;
    let registers = 0x7fff & !(1 << base);
    let record = Record::block_mem(direction | block_mem::WRITEBACK, base, registers);
    // A cost of many digits.
    record.with_cond(turn % 14).with_cost(u16::MAX - n as u16)
}
