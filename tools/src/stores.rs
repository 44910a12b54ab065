//! Stores of several registers, each in a block of its own, and what the ARM manual says that they
//! do (A3.2, A4.1 STM (1), A5.4), from the registers that `runtime/stores.c` sets. It leaves open
//! what is stored of PC (A2.4.3), here its address plus 12, and of a base that is written back and
//! not the lowest (A4.1), here the base after the store: both as emit.rs has it.

use crate::file::{build, Block, File};
use crate::record::{block_mem, Record, AL};

/// Conditions that hold, and that do not, where Z alone is set.
const EQ: u8 = 0;
const NE: u8 = 1;

/// The base, and lists in which it is alone, the lowest, the highest, and between others, without
/// PC and with it.
const BASE: u8 = 5;
const LISTS: [u16; 5] = [0x0020, 0x0260, 0x0021, 0x0062, 0x8030];

#[derive(Clone, Copy, Debug)]
pub struct Store {
    cond: u8,
    flags: u8,
    rn: u8,
    rlist: u16,
}

/// Every direction, with and without writeback, each list, and no condition, one that holds and one
/// that does not; after them the title's own store of request 2, `stmia r1, {r0, r1}`.
pub fn all() -> Vec<Store> {
    let mut out = vec![];
    let store = |flags: &u8| flags & (block_mem::LOAD | block_mem::S_BIT) == 0;
    for flags in (0..32).filter(store) {
        for rlist in LISTS {
            let rn = BASE;
            out.extend([AL, EQ, NE].map(|cond| Store {
                cond,
                flags,
                rn,
                rlist,
            }));
        }
    }
    out.push(TITLE);
    out
}

/// The store of request 2.
const TITLE: Store = Store {
    cond: AL,
    flags: block_mem::UP,
    rn: 1,
    rlist: 0b11,
};

impl Store {
    fn has(&self, flag: u8) -> bool {
        self.flags & flag != 0
    }

    /// A block of the store and `bx r14`, in ROM.
    fn block(&self, address: u32) -> Block {
        let store = Record::block_mem(self.flags, self.rn, self.rlist).with_cond(self.cond);
        Block {
            address,
            thumb: false,
            code: None,
            records: vec![store, Record::bx(14)],
        }
    }

    /// What `runtime/stores.c` is to print of that block: its key, the address and the word of each
    /// store, and the base where it has changed.
    fn line(&self, address: u32) -> String {
        let mut line = format!("{address:08x}");
        if self.cond == NE {
            return line;
        }
        let base = register(self.rn);
        let size = 4 * self.rlist.count_ones();
        let after = match self.has(block_mem::UP) {
            true => base + size,
            false => base - size,
        };
        let lowest = self.rlist.trailing_zeros();
        // A5.4: the lowest address, by U and P.
        let mut at = match (self.has(block_mem::UP), self.has(block_mem::PRE)) {
            (true, false) => base,
            (true, true) => base + 4,
            (false, false) => after + 4,
            (false, true) => after,
        };
        for r in (0..16).filter(|r| self.rlist >> r & 1 == 1) {
            let value = match r {
                15 => address + 12,
                _ if r == self.rn && self.has(block_mem::WRITEBACK) && lowest != r.into() => after,
                _ => register(r),
            };
            line += &format!(" {at:08x}={value:08x}");
            at += 4;
        }
        if self.has(block_mem::WRITEBACK) {
            line += &format!(" r{}={after:08x}", self.rn);
        }
        line
    }
}

/// What `runtime/stores.c` sets a register to.
fn register(r: u8) -> u32 {
    0x0200_0100 + 0x10 * u32::from(r)
}

/// The file of these stores, and what is to be printed of it.
pub fn file(stores: &[Store]) -> (File, String) {
    let addresses = (0x0800_0000..).step_by(8);
    let pairs = || stores.iter().zip(addresses.clone());
    let blocks: Vec<Block> = pairs()
        .map(|(store, address)| store.block(address))
        .collect();
    let lines = pairs().map(|(store, address)| store.line(address) + "\n");
    (build(&blocks), lines.collect())
}

/// The file with the store of request 2 alone.
pub fn title() -> (File, String) {
    file(&[TITLE])
}
