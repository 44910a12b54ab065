//! Files with a record of every kind and form, dealt out to blocks of several regions.

use crate::file::{self, Block, File};
use crate::record::{block_mem, mem, Offset, Operand, Record, Shifted};

/// One file of those that hold all records together.
#[derive(Clone, Copy, Debug)]
pub struct Forms {
    /// Its number, below `parts()`.
    pub part: usize,
    pub thumb: bool,
    /// Whether the records bear all conditions in turn; else they are carried out always, branches
    /// and Bx inside a block apart.
    pub conditional: bool,
    /// Moves records against regions, closings and costs.
    pub turn: usize,
}

/// Where blocks start, and how many there are: BIOS, RAM with its guards, ROM, and a mirror of it.
const RUNS: [(u32, usize); 5] = [
    (0x0000_0100, 3),
    (0x0200_0100, 3),
    (0x0300_0100, 3),
    (0x0800_0100, 8),
    (0x0900_0100, 3),
];

/// Blocks of a file, and records of a block before its closing.
const BLOCKS: usize = 20;
const LENGTH: usize = 6;

const COSTS: [u16; 7] = [1, 3, 0, 6, 65_535, 2, 300];

/// How many files hold all records together.
pub fn parts() -> usize {
    plain().len().div_ceil(BLOCKS * LENGTH)
}

/// Every part with either set, with and without conditions, in so many turns.
pub fn all(turns: usize) -> impl Iterator<Item = Forms> {
    let parts = parts();
    (0..turns * 4 * parts).map(move |n| Forms {
        part: n % parts,
        thumb: n / parts % 2 == 1,
        conditional: n / parts / 2 % 2 == 1,
        turn: n / parts / 4,
    })
}

impl Forms {
    pub fn file(&self) -> File {
        file::build(&self.blocks())
    }

    pub fn blocks(&self) -> Vec<Block> {
        let size = if self.thumb { 2 } else { 4 };
        let (mut blocks, mut n) = (vec![], 0);
        for (start, count) in RUNS {
            let mut address = start;
            for k in 0..count {
                // Where the neighbours of a run touch one another is known before their records.
                let length = (LENGTH + self.closing(n, [0; 3]).len()) as u32;
                let after = address + size * length;
                let before = match k {
                    0 => address,
                    _ => blocks.last().map_or(address, |b: &Block| b.address),
                };
                let block = self.block(n, address, [before, address, after]);
                blocks.push(block);
                (address, n) = (after, n + 1);
            }
        }
        blocks
    }

    /// Block `n` of the file.
    fn block(&self, n: usize, address: u32, near: [u32; 3]) -> Block {
        let plain = plain();
        // A turn moves the records on by some blocks, so that they come to other regions.
        let first = (self.part * BLOCKS + n + 7 * self.turn) * LENGTH;
        let own = (first..first + LENGTH).map(|m| {
            let record = plain[m % plain.len()];
            match self.conditional {
                true => record.with_cond((m + 5 * self.turn) as u8 % 16),
                false => record,
            }
        });
        let records = own.chain(self.closing(n, near));
        let cost = |m: usize| COSTS[(m + n + self.turn) % COSTS.len()];
        let records = (0..).zip(records).map(|(m, r)| r.with_cost(cost(m)));
        let mut block = Block {
            address,
            thumb: self.thumb,
            code: None,
            records: records.collect(),
        };
        if !(n + self.part + self.turn).is_multiple_of(5) {
            let code = (0..block.byte_len()).map(|m| (31 * m + 7 * n + self.turn) as u8);
            block.code = Some(code.collect());
        }
        block
    }

    fn closing(&self, n: usize, near: [u32; 3]) -> Vec<Record> {
        let closings = closings(near, self.thumb);
        closings[(n + self.part + self.turn) % closings.len()].clone()
    }
}

/// Ways to close a block, with the addresses of the block before, of the block itself and after it.
fn closings([before, own, after]: [u32; 3], thumb: bool) -> Vec<Vec<Record>> {
    let value = Operand::Value { value: 8, ror: 0 };
    let key = before | thumb as u32;
    let pop = block_mem::LOAD | block_mem::UP | block_mem::WRITEBACK;
    let load = mem::LOAD | mem::UP;
    vec![
        vec![],
        vec![Record::branch(false, own)],
        vec![Record::branch(false, before).with_cond(0)],
        vec![Record::branch(true, after)],
        vec![
            Record::thumb_bl_high(key.wrapping_sub(14)),
            Record::thumb_bl_low(7),
        ],
        vec![Record::bx(14)],
        vec![Record::branch(true, own).with_cond(11)],
        vec![Record::block_mem(pop, 13, 0x8013)],
        vec![Record::thumb_bl_high(after)],
        vec![Record::branch(true, before)],
        vec![Record::thumb_bl_low(3)],
        vec![Record::swi([0; 12])],
        vec![Record::branch(false, after).with_cond(15)],
        vec![Record::alu(13, false, 15, 0, value)],
        vec![Record::mem(load, 2, 15, 13, Offset::Value(4))],
        vec![Record::bx(15)],
        vec![Record::undefined([0; 12])],
        vec![Record::bx(3).with_cond(1)],
    ]
}

/// All records but those that close a block by force.
fn plain() -> Vec<Record> {
    let mut out = vec![];
    add_alus(&mut out);
    add_muls(&mut out);
    add_mems(&mut out);
    add_block_mems(&mut out);
    out.extend([
        Record::swap([0; 12]),
        Record::mrs([0; 12]),
        Record::branch(false, 0x0800_0100).with_cond(2),
        Record::msr_reg([0; 12]),
        Record::bx(14).with_cond(3),
        Record::msr_imm([0; 12]),
        Record::thumb_bl_low(9),
        Record::branch(true, 0x0200_0100).with_cond(15),
        Record::swi([0; 12]),
        Record::thumb_bl_high(0x0800_0000),
        Record::undefined([0; 12]),
    ]);
    out
}

/// Each kind of shift by an amount that is 0 and one that is not, and by a register.
fn shifts(n: usize) -> Vec<Shifted> {
    let rm = (3 * n % 16) as u8;
    let amount = [1, 5, 31][n % 3];
    let mut out = vec![];
    for kind in 0..4 {
        out.push(Shifted::ByAmount { rm, kind, amount });
        out.push(Shifted::ByAmount {
            rm,
            kind,
            amount: 0,
        });
    }
    let (kind, rs) = ((n % 4) as u8, (n % 16) as u8);
    out.push(Shifted::ByRegister { rm, kind, rs });
    out
}

fn add_alus(out: &mut Vec<Record>) {
    for n in 0..32 {
        let (op, s) = ((n / 2) as u8, n % 2 == 1);
        let values = [(0xff, 0), (0x8000_00ff, 8)];
        let values = values.map(|(value, ror)| Operand::Value { value, ror });
        let shifted = shifts(n).into_iter().map(Operand::Register);
        for (m, operand) in values.into_iter().chain(shifted).enumerate() {
            let (rd, rn) = ((n + m) % 15, (n + 5 * m) % 16);
            out.push(Record::alu(op, s, rd as u8, rn as u8, operand));
        }
    }
    // PC as the result goes to the interpreter.
    out.push(Record::alu(
        4,
        true,
        15,
        1,
        Operand::Value { value: 8, ror: 0 },
    ));
}

fn add_muls(out: &mut Vec<Record>) {
    for n in 0..8u8 {
        let [acc, s, last] = [1, 2, 4].map(|bit| n & bit != 0);
        // PC as the result goes to the interpreter.
        let rd = if last { 15 } else { n };
        out.push(Record::mul(acc, s, rd, n + 1, n + 2, n + 8));
        let hi = if last { 15 } else { n + 4 };
        out.push(Record::mul_long([acc, s, last], [hi, n, n + 3, n + 7]));
    }
}

fn offsets(n: usize) -> Vec<Offset> {
    let values = [0, 0xfff, 0xffff].map(Offset::Value).into_iter();
    values
        .chain(shifts(n).into_iter().map(Offset::Register))
        .collect()
}

fn add_mems(out: &mut Vec<Record>) {
    for n in 0..96 {
        let (flags, width) = ((n % 32) as u8, (n / 32) as u8);
        let offsets = offsets(n);
        // Two of the offsets each: over the flags all come with every width.
        for m in [n, n + 5] {
            let (rd, rn) = ((n + m) as u8 % 15, (5 * m) as u8 % 16);
            out.push(Record::mem(
                flags,
                width,
                rd,
                rn,
                offsets[m % offsets.len()],
            ));
        }
    }
    for flags in 0..32 {
        let (width, rd) = (flags % 3, flags % 15);
        // PC as the base, and the base loaded or stored itself.
        out.push(Record::mem(flags, width, rd, 15, Offset::Value(6)));
        out.push(Record::mem(flags, width, rd, rd, Offset::Value(1)));
    }
    out.push(Record::mem(0, 2, 15, 3, Offset::Value(4)));
}

fn add_block_mems(out: &mut Vec<Record>) {
    let pc = 1 << 15;
    for flags in 0..32u8 {
        let rn = flags % 10 + 2;
        let [base, lower, higher] = [1 << rn, 1 << (rn - 1), 1 << (rn + 2)];
        let lists = [base, base | higher, lower | base, lower | higher];
        if flags & block_mem::S_BIT != 0 {
            // The interpreter's, whatever is listed.
            out.push(Record::block_mem(flags, rn, lower | base));
            continue;
        }
        out.extend(lists.map(|list| Record::block_mem(flags, rn, list)));
        let pop = block_mem::LOAD | block_mem::UP | block_mem::WRITEBACK;
        if flags != pop {
            out.push(Record::block_mem(flags, rn, pc | base | higher));
        }
    }
    out.extend([
        Record::block_mem(block_mem::UP, 3, 0xffff),
        Record::block_mem(block_mem::LOAD | block_mem::UP, 3, 0x7fff),
        Record::block_mem(block_mem::LOAD, 4, 0),
        Record::block_mem(block_mem::LOAD | block_mem::UP, 15, 0x0012),
        Record::block_mem(block_mem::WRITEBACK, 15, 0x0012),
    ]);
}
