//! Files with many shells: in every field that decides on one the values that do so are frequent,
//! so that every reason comes with every kind, and several at once.

use super::instructions::{branch, bx, condition, half, mul_long, register};
use super::layout::Span;
use super::{blocks_of, Lengths, Params, Place};
use crate::file::{self, Block, File};
use crate::record::{block_mem, FreeKind, Offset, Operand, Record, Shifted};
use crate::rng::Rng;

/// Blocks of up to 16 instructions, so that a cost with one bit can tell each from the others.
const LENGTH: usize = 16;

const PC: u8 = 15;

/// Runs in BIOS and ROM, in RAM, and in pages whose region is that of BIOS or ROM.
const RUNS: [&[u32]; 6] = [
    &[0x0000_0000, 0x0800_0000],
    &[0x0100_0000, 0x0300_0000, 0x1000_0000],
    &[0x0200_0000, 0x0800_0100, 0x2000_0000],
    &[0x0700_0000, 0x0f00_0000, 0x1800_0000],
    &[0x0000_0100, 0x0900_0000, 0xf000_0000],
    &[0x0800_0000, 0x1200_0000, 0xf800_0000],
];

#[derive(Clone, Copy, Debug)]
pub struct Shells {
    pub seed: u64,
}

impl Shells {
    /// Up to 12 blocks.
    fn params(&self) -> Params {
        let rng = &mut Rng::new(!self.seed);
        let place = match rng.percent(30) {
            true => Place::Anywhere,
            false => Place::Runs(rng.pick(&RUNS)),
        };
        Params {
            seed: self.seed,
            blocks: rng.between(1, 12),
            lengths: Lengths::Between(1, rng.pick(&[1, 2, 4, LENGTH])),
            place,
            thumb: rng.pick(&[0, 50, 100]),
            joined: 0,
            backwards: false,
            code: rng.pick(&[0, 50, 100, 100]),
        }
    }

    pub fn blocks(&self) -> Vec<Block> {
        blocks_of(&self.params(), records)
    }

    pub fn file(&self) -> File {
        file::build(&self.blocks())
    }
}

/// Records of every kind, in some blocks with a pair among them. The costs are powers of 2.
fn records(rng: &mut Rng, spans: &[Span], i: usize) -> Vec<Record> {
    let count = spans[i].count;
    let mut records: Vec<Record> = (0..count).map(|_| record(rng, spans, i)).collect();
    if count > 1 && rng.percent(30) {
        let at = rng.below(count - 1);
        let high = Record::thumb_bl_high(rng.next_u32());
        let low = Record::thumb_bl_low(rng.next_u32() as u16);
        records[at] = high.with_cond(condition(rng));
        records[at + 1] = low.with_cond(condition(rng));
    }
    let costs = (0..).map(|n| 1 << n);
    let records = records.into_iter().zip(costs);
    records.map(|(r, cost)| r.with_cost(cost)).collect()
}

fn record(rng: &mut Rng, spans: &[Span], i: usize) -> Record {
    let record = match rng.below(32) {
        0..=5 => alu(rng),
        6..=12 => mem(rng),
        13..=20 => transfer(rng),
        21..=22 => mul(rng),
        23 => mul_long(rng),
        24..=25 => bx(rng),
        26 => branch(rng, spans, i),
        27..=29 => half(rng),
        _ => free(rng),
    };
    record.with_cond(condition(rng))
}

/// A result or a stored register: PC in one of four.
fn result(rng: &mut Rng) -> u8 {
    match rng.below(4) {
        0 => PC,
        _ => register(rng),
    }
}

/// By a register, or by an amount that is 0 as often as not.
fn shifted(rng: &mut Rng) -> Shifted {
    let (rm, kind) = (register(rng), rng.byte(4));
    match rng.below(4) {
        0 => Shifted::ByRegister {
            rm,
            kind,
            rs: register(rng),
        },
        more => Shifted::ByAmount {
            rm,
            kind,
            amount: if more == 1 { rng.byte(32) } else { 0 },
        },
    }
}

fn alu(rng: &mut Rng) -> Record {
    let operand = match rng.percent(40) {
        true => Operand::Value { value: 1, ror: 0 },
        false => Operand::Register(shifted(rng)),
    };
    let (op, s) = (rng.byte(16), rng.percent(50));
    Record::alu(op, s, result(rng), register(rng), operand)
}

fn mem(rng: &mut Rng) -> Record {
    let offset = match rng.percent(30) {
        true => Offset::Value(rng.next_u32() as u16),
        false => Offset::Register(shifted(rng)),
    };
    let (flags, width) = (rng.byte(32), rng.byte(3));
    Record::mem(flags, width, result(rng), register(rng), offset)
}

fn mul(rng: &mut Rng) -> Record {
    let [acc, s] = [rng.percent(50), rng.percent(50)];
    Record::mul(acc, s, result(rng), register(rng), 1, 2)
}

/// Bytes from 4 on that would be PC, were they registers, as often as others.
fn free(rng: &mut Rng) -> Record {
    let rest = std::array::from_fn(|_| match rng.below(2) {
        0 => PC,
        _ => rng.byte(256),
    });
    Record::free(rng.pick(&FreeKind::ALL), rest)
}

/// A transfer of several registers: the flags of a pop, or of one that differs from it in a flag,
/// as often as others.
fn transfer(rng: &mut Rng) -> Record {
    let pop = block_mem::LOAD | block_mem::UP | block_mem::WRITEBACK;
    let flags = match rng.below(4) {
        0 => pop,
        1 => pop ^ 1 << rng.below(5),
        _ => rng.byte(32),
    };
    let rlist = match rng.below(5) {
        0 => 0,
        1 => 1 << PC,
        2 => 1 << PC | rng.next_u32() as u16,
        _ => rng.next_u32() as u16,
    };
    Record::block_mem(flags, result(rng), rlist)
}
