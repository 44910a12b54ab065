//! Files with a block for every way to close one, under one condition each.

use crate::file::{self, Block, File};
use crate::record::{block_mem, mem, Offset, Operand, Record, Shifted};

/// What stands before the closing record.
#[derive(Clone, Copy, Debug)]
pub enum Front {
    Nothing,
    Plain,
    High,
    Low,
    /// A high half, but not right before the closing.
    HighApart,
}

const FRONTS: [Front; 5] = [
    Front::Nothing,
    Front::Plain,
    Front::High,
    Front::Low,
    Front::HighApart,
];

impl Front {
    fn records(self, lr_partial: u32) -> Vec<Record> {
        let high = Record::thumb_bl_high(lr_partial);
        match self {
            Front::Nothing => vec![],
            Front::Plain => vec![Record::mul(false, false, 15, 15, 15, 15)],
            Front::High => vec![high],
            Front::Low => vec![Record::thumb_bl_low(7)],
            Front::HighApart => vec![high, Record::mrs([0xff; 12])],
        }
    }
}

/// Where the blocks end: the middle of ROM's page, its end and the end of addresses.
const ENDS: [u32; 3] = [0x0880_0000, 0x0900_0000, 0];

#[derive(Clone, Copy, Debug)]
pub struct Closings {
    pub cond: u8,
    pub front: Front,
    pub thumb: bool,
    pub end: u32,
}

/// All of them: conditions, fronts, instruction sets and ends.
pub fn all() -> impl Iterator<Item = Closings> {
    (0..16 * FRONTS.len() * 2 * ENDS.len()).map(|n| Closings {
        cond: (n % 16) as u8,
        front: FRONTS[n / 16 % FRONTS.len()],
        thumb: n / 16 / FRONTS.len() % 2 == 1,
        end: ENDS[n / 16 / FRONTS.len() / 2],
    })
}

/// A record of every kind, and one for each field that the exits depend on. `near` is an address
/// at which a block may stand.
fn records(near: u32) -> Vec<Record> {
    let value = Operand::Value { value: 4, ror: 0 };
    let (rm, kind, amount, rs) = (15, 3, 31, 15);
    let by_amount = Shifted::ByAmount { rm, kind, amount };
    let by_register = Shifted::ByRegister { rm, kind, rs };
    let load = mem::LOAD | mem::PRE | mem::UP;
    let all = 0x1f;
    let mut out = vec![
        Record::alu(13, false, 15, 0, value),
        Record::alu(10, true, 15, 0, value),
        Record::alu(15, true, 14, 15, value),
        Record::alu(4, false, 15, 15, Operand::Register(by_amount)),
        Record::alu(4, true, 7, 15, Operand::Register(by_register)),
        Record::mul(true, true, 15, 15, 15, 15),
        Record::mul_long([true; 3], [15; 4]),
        Record::swap([0xff; 12]),
        Record::bx(14),
        Record::bx(15),
        Record::branch(false, near),
        Record::branch(true, near),
        Record::branch(false, 0xffff_fffe),
        Record::branch(true, 0),
        Record::thumb_bl_high(near),
        Record::thumb_bl_low(0),
        Record::thumb_bl_low(0xffff),
        Record::mrs([0xff; 12]),
        Record::msr_reg([0xff; 12]),
        Record::msr_imm([0xff; 12]),
        Record::swi([0xff; 12]),
        Record::undefined([0xff; 12]),
    ];
    for flags in [load, all, all & !mem::LOAD, 0] {
        for (width, rd) in [(0, 15), (1, 15), (2, 15), (2, 14), (2, 0)] {
            out.push(Record::mem(flags, width, rd, 15, Offset::Value(0xffff)));
        }
        out.push(Record::mem(flags, 2, 15, 0, Offset::Register(by_amount)));
    }
    for flags in [all, block_mem::LOAD, all & !block_mem::LOAD, 0] {
        for rlist in [0x8000, 0xffff, 0x7fff, 0x4000, 0] {
            out.push(Record::block_mem(flags, 15, rlist));
        }
    }
    out
}

impl Closings {
    /// One block for each record, touching one another, so that a fall-through leads to the next.
    pub fn blocks(&self) -> Vec<Block> {
        let size = if self.thumb { 2 } else { 4 };
        let length = self.front.records(0).len() + 1;
        let bytes = (size * length) as u32;
        let count = records(0).len() as u32;
        let start = self.end.wrapping_sub(bytes * count);
        (0..count)
            .map(|n| {
                let address = start.wrapping_add(bytes * n);
                // Two blocks ahead; beyond the last one there is none.
                let near = address.wrapping_add(2 * bytes);
                let mut block = self.front.records(near);
                block.push(records(near)[n as usize]);
                Block {
                    address,
                    thumb: self.thumb,
                    code: None,
                    records: block.into_iter().map(|r| r.with_cond(self.cond)).collect(),
                }
            })
            .collect()
    }

    pub fn file(&self) -> File {
        file::build(&self.blocks())
    }
}
