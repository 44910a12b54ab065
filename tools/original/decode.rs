//! Reads the blocks of an accepted block file into the types of the original. Its fields are those
//! of document 01; the operations whose bytes are free are told apart by their kind alone.

use armv4t::{AluOp, Cond, Instr, MemOffset, MemWidth, Op, Operand2, Shift, ShiftKind};
use recomp_core::analyze::Block;

const RECORD: usize = 16;

pub fn word(bytes: &[u8], at: usize) -> u32 {
    u32::from_le_bytes(bytes[at..at + 4].try_into().expect("four bytes"))
}

/// Each block's record, with the records of its instructions.
pub fn records(file: &[u8]) -> impl Iterator<Item = (&[u8], &[u8])> {
    let trailer = |n: usize| word(file, file.len() - 32 + 4 * n) as usize;
    let place = |n: usize| file.len() - trailer(n);
    let blocks = &file[place(1)..][..RECORD * trailer(2)];
    let mut instructions = &file[place(3)..place(1)];
    blocks.chunks(RECORD).map(move |block| {
        let (own, rest) = instructions.split_at(RECORD * word(block, 8) as usize);
        instructions = rest;
        (block, own)
    })
}

pub fn blocks(file: &[u8]) -> Vec<Block> {
    records(file)
        .map(|(record, own)| {
            let (addr, thumb) = (word(record, 0), word(record, 4) & 1 != 0);
            let size = if thumb { 2 } else { 4 };
            let instr = |(n, record): (u32, &[u8])| Instr {
                addr: addr + n * size,
                cond: Cond::from_bits(record[1]),
                op: op(record),
                thumb,
            };
            let instrs = (0..).zip(own.chunks(RECORD)).map(instr).collect();
            Block {
                addr,
                thumb,
                instrs,
            }
        })
        .collect()
}

fn op(record: &[u8]) -> Op {
    let flag = |at: usize| record[at] != 0;
    let high = word(record, 12);
    match record[0] {
        0 => alu(record),
        1 => Op::Mul {
            acc: flag(4),
            s: flag(5),
            rd: record[6],
            rn: record[7],
            rs: record[8],
            rm: record[9],
        },
        2 => Op::MulLong {
            signed: flag(4),
            acc: flag(5),
            s: flag(6),
            rd_hi: record[7],
            rd_lo: record[8],
            rs: record[9],
            rm: record[10],
        },
        4 => Op::Bx { rm: record[4] },
        5 => Op::Branch {
            link: flag(4),
            target: high,
        },
        6 => Op::ThumbBlHigh { lr_partial: high },
        7 => Op::ThumbBlLow { off: high as u16 },
        8 => mem(record),
        9 => block_mem(record),
        kind => free(kind),
    }
}

fn alu(record: &[u8]) -> Op {
    let op2 = match record[8] {
        0 => Operand2::Imm {
            value: word(record, 12),
            ror: record[9],
        },
        _ => Operand2::Reg {
            rm: record[9],
            shift: shift(record),
        },
    };
    Op::Alu {
        op: AluOp::from_bits(record[4]),
        s: record[5] != 0,
        rd: record[6],
        rn: record[7],
        op2,
    }
}

fn shift(record: &[u8]) -> Shift {
    let kind = ShiftKind::from_bits(record[10]);
    let last = record[11];
    match record[8] {
        1 => Shift::Imm { kind, amount: last },
        _ => Shift::Reg { kind, rs: last },
    }
}

fn bit(record: &[u8], n: u8) -> bool {
    record[4] >> n & 1 != 0
}

fn mem(record: &[u8]) -> Op {
    let offset = match record[8] {
        0 => MemOffset::Imm(word(record, 12) as u16),
        _ => MemOffset::Reg {
            rm: record[9],
            shift: shift(record),
        },
    };
    let width = match record[5] {
        0 => MemWidth::Byte,
        1 => MemWidth::Half,
        _ => MemWidth::Word,
    };
    Op::Mem {
        load: bit(record, 0),
        signed: bit(record, 1),
        pre: bit(record, 2),
        up: bit(record, 3),
        writeback: bit(record, 4),
        width,
        rd: record[6],
        rn: record[7],
        offset,
    }
}

fn block_mem(record: &[u8]) -> Op {
    Op::BlockMem {
        load: bit(record, 0),
        pre: bit(record, 1),
        up: bit(record, 2),
        s_bit: bit(record, 3),
        writeback: bit(record, 4),
        rn: record[6],
        rlist: word(record, 12) as u16,
    }
}

fn free(kind: u8) -> Op {
    let (spsr, fields, rd, rm) = (false, 0, 0, 0);
    match kind {
        3 => Op::Swap {
            byte: false,
            rd,
            rm,
            rn: 0,
        },
        10 => Op::Mrs { spsr, rd },
        11 => Op::MsrReg { spsr, fields, rm },
        12 => Op::MsrImm {
            spsr,
            fields,
            value: 0,
        },
        13 => Op::Swi { imm: 0 },
        14 => Op::Undefined { raw: 0 },
        _ => panic!("no kind {kind}: FILE must be accepted"),
    }
}
