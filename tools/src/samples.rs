//! The sample block files of the repository, small enough to be read byte by byte.

use crate::file::{build, Block};
use crate::generate::{self, Params};
use crate::record::{Operand, Record};
use crate::stores;

/// Name and bytes of each sample.
pub fn all() -> Vec<(&'static str, Vec<u8>)> {
    vec![
        ("three_blocks.blk", three_blocks()),
        ("count_down.blk", count_down()),
        ("ram_and_thumb.blk", ram_and_thumb()),
        ("saved_base.blk", stores::title().0.bytes),
        (
            "generated.blk",
            generate::file(&Params::small(GENERATED)).bytes,
        ),
        ("no_blocks.blk", build(&[]).bytes),
    ]
}

/// The seed of a small file with blocks in several regions, some of them grouped.
const GENERATED: u64 = 561;

/// An ARM block without code bytes.
fn arm(address: u32, records: Vec<Record>) -> Block {
    Block {
        address,
        thumb: false,
        code: None,
        records,
    }
}

/// Document 01's listing example: a branch over one block to another, each one instruction long.
fn three_blocks() -> Vec<u8> {
    let lone = |address, record| arm(address, vec![record]);
    build(&[
        lone(0x0800_0000, Record::branch(false, 0x0800_0008)),
        lone(0x0800_0004, Record::bx(14)),
        lone(0x0800_0008, Record::bx(14)),
    ])
    .bytes
}

/// A loop in ROM: `mov r0, #10`, then `subs r0, r0, #1` and `bne` back to it, then `bx r14`.
fn count_down() -> Vec<u8> {
    const SUB: u8 = 2;
    const MOV: u8 = 13;
    const NE: u8 = 1;
    let value = |value| Operand::Value { value, ror: 0 };
    let step = Record::alu(SUB, true, 0, 0, value(1)).with_cost(1);
    let again = Record::branch(false, 0x0800_0004).with_cond(NE);
    build(&[
        arm(
            0x0800_0000,
            vec![Record::alu(MOV, false, 0, 0, value(10)).with_cost(1)],
        ),
        arm(0x0800_0004, vec![step, again.with_cost(3)]),
        arm(0x0800_000c, vec![Record::bx(14).with_cost(3)]),
    ])
    .bytes
}

/// A Thumb call in RAM, which is guarded by a hash of its code bytes, and an ARM block whose code
/// bytes are absent.
fn ram_and_thumb() -> Vec<u8> {
    let call = vec![
        Record::thumb_bl_high(0x0200_0104).with_cost(3),
        Record::thumb_bl_low(3).with_cost(1),
    ];
    let call = Block {
        address: 0x0200_0100,
        thumb: true,
        code: Some(vec![0x00, 0xf0, 0x03, 0xf8]),
        records: call,
    };
    build(&[call, arm(0x0200_0104, vec![Record::swi([0; 12])])]).bytes
}
