//! Single records, each with the reason that it must have in a page.

use crate::reasons::Reason;
use crate::record::{block_mem, mem, FreeKind, Offset, Operand, Record, Shifted, AL};

/// Pages of BIOS, RAM and ROM, and one with the region of BIOS.
pub(super) const BIOS: u32 = 0x00;
pub(super) const RAM: u32 = 0x03;
pub(super) const ROM: u32 = 0x08;
const LIKE_BIOS: u32 = 0x10;

/// Flags of the pop that is known as an exit.
const POP: u8 = block_mem::LOAD | block_mem::UP | block_mem::WRITEBACK;

pub(super) const EQ: u8 = 0;
pub(super) const NV: u8 = 15;

/// A record, and the reason for its shell where it has one.
type Reasoned = (Record, Option<Reason>);

/// The same in a page.
type Named = (u32, Record, Option<Reason>);

pub(super) fn mrs() -> Record {
    Record::mrs([0; 12])
}

pub(super) fn bx() -> Record {
    Record::bx(14)
}

pub(super) fn branch() -> Record {
    Record::branch(false, 0x0800_0000)
}

pub(super) fn pop() -> Record {
    Record::block_mem(POP, 13, 0x8010)
}

pub(super) fn high() -> Record {
    Record::thumb_bl_high(0x0800_0000)
}

pub(super) fn low() -> Record {
    Record::thumb_bl_low(7)
}

/// A native Alu.
pub(super) fn add() -> Record {
    alu(4, 1, Operand::Value { value: 1, ror: 0 })
}

/// An Alu with PC as its result, the sentence on which is as long as any.
pub(super) fn add_pc() -> Record {
    alu(4, 15, Operand::Value { value: 1, ror: 0 })
}

fn alu(op: u8, rd: u8, operand: Operand) -> Record {
    Record::alu(op, true, rd, 2, operand)
}

fn by_amount(kind: u8, amount: u8) -> Shifted {
    let rm = 15;
    Shifted::ByAmount { rm, kind, amount }
}

fn by_register(kind: u8) -> Shifted {
    let (rm, rs) = (3, 15);
    Shifted::ByRegister { rm, kind, rs }
}

/// A Mem whose offset is in a register.
fn mem_by(flags: u8, rd: u8, shifted: Shifted) -> Record {
    Record::mem(flags, 2, rd, 1, Offset::Register(shifted))
}

fn in_page(page: u32, records: &[Reasoned]) -> Vec<Named> {
    let named = records.iter().map(|&(r, reason)| (page, r, reason));
    named.collect()
}

/// The halves and exits alone in a block, in three pages.
fn exits() -> Vec<Named> {
    use Reason::{BiosExit, ConditionalExit, PcAsBase, PcInLoadedList, UnpairedHalf};
    let halves = |cond| [high(), low()].map(|r| (r.with_cond(cond), Some(UnpairedHalf)));
    let both = |cond, reason| [bx(), pop()].map(|r| (r.with_cond(cond), reason));
    let rom = [
        both(AL, None),
        both(EQ, Some(ConditionalExit)),
        both(NV, Some(ConditionalExit)),
        halves(AL),
        halves(NV),
        [branch(), branch().with_cond(EQ)].map(|r| (r, None)),
    ];
    let bios = [
        both(AL, Some(BiosExit)),
        both(EQ, Some(ConditionalExit)),
        halves(AL),
        [branch(), branch().with_cond(EQ)].map(|r| (r, None)),
        // No exits: the base is PC, or it is not written back.
        [
            (Record::block_mem(POP, 15, 0x8000), Some(PcAsBase)),
            (Record::block_mem(0x05, 0, 0x8000), Some(PcInLoadedList)),
        ],
    ];
    let like_bios = [both(AL, Some(BiosExit)), both(NV, Some(ConditionalExit))];
    let pages = [
        in_page(ROM, rom.as_flattened()),
        in_page(BIOS, bios.as_flattened()),
        in_page(LIKE_BIOS, like_bios.as_flattened()),
    ];
    pages.concat()
}

/// Alu, Mul and MulLong. Operations 8 to 11 compare.
fn alus() -> Vec<Reasoned> {
    use Reason::{PcAsResult, RegisterShift};
    let value = Operand::Value { value: 4, ror: 2 };
    let [extend, lsl] = [by_amount(3, 0), by_amount(0, 0)].map(Operand::Register);
    let by_register = Operand::Register(by_register(3));
    let mul = |rd| Record::mul(true, true, rd, 15, 15, 15);
    let long = |hi, lo| Record::mul_long([true; 3], [hi, lo, 15, 15]);
    let compares = (8..12).map(|op| (alu(op, 15, value), Some(PcAsResult)));
    let others = [
        (alu(13, 15, value), Some(PcAsResult)),
        (alu(13, 15, extend), Some(PcAsResult)),
        (alu(0, 15, by_register), Some(PcAsResult)),
        (alu(10, 15, by_register), Some(PcAsResult)),
        (alu(0, 14, by_register), Some(RegisterShift)),
        (alu(10, 0, by_register).with_cond(EQ), Some(RegisterShift)),
        (alu(13, 0, extend), None),
        (alu(10, 14, value), None),
        (alu(2, 14, lsl).with_cond(NV), None),
        (mul(15), Some(PcAsResult)),
        (mul(15).with_cond(EQ), Some(PcAsResult)),
        (mul(14), None),
        (long(15, 0), None),
        (long(0, 15), None),
    ];
    compares.chain(others).collect()
}

fn mems() -> Vec<Reasoned> {
    use Reason::{PcAsResult, RegisterShift, RotateWithExtend};
    let load = mem::LOAD | mem::PRE | mem::UP;
    let value = |flags, rd, rn| Record::mem(flags, 2, rd, rn, Offset::Value(4));
    let mut out = vec![
        (value(load, 15, 0), Some(PcAsResult)),
        (value(0, 15, 0), Some(PcAsResult)),
        (value(load, 0, 15), None),
        (value(mem::WRITEBACK, 14, 15), None),
    ];
    for flags in [load, 0] {
        out.extend([
            (mem_by(flags, 15, by_amount(0, 2)), Some(PcAsResult)),
            (mem_by(flags, 15, by_amount(3, 0)), Some(PcAsResult)),
            (mem_by(flags, 15, by_register(0)), Some(PcAsResult)),
            (mem_by(flags, 0, by_register(0)), Some(RegisterShift)),
            (mem_by(flags, 14, by_register(3)), Some(RegisterShift)),
            (mem_by(flags, 14, by_amount(3, 0)), Some(RotateWithExtend)),
            (mem_by(flags, 0, by_amount(3, 1)), None),
            (mem_by(flags, 0, by_amount(2, 0)), None),
        ]);
    }
    out
}

/// Transfers of several registers under Al, but for the pop that is known as an exit.
fn transfers() -> Vec<Reasoned> {
    use Reason::{EmptyList, PcAsBase, PcInLoadedList, UserRegisters};
    let of = |flags, rn, rlist, reason| (Record::block_mem(flags, rn, rlist), reason);
    let mut out = vec![];
    for load in [0, block_mem::LOAD] {
        let user = load | block_mem::S_BIT;
        let in_list = (load != 0).then_some(PcInLoadedList);
        out.extend([
            of(user, 0, 0x0002, Some(UserRegisters)),
            of(user | POP, 13, 0x8000, Some(UserRegisters)),
            of(user, 15, 0, Some(UserRegisters)),
            of(load, 0, 0, Some(EmptyList)),
            of(load | POP, 15, 0, Some(EmptyList)),
            of(load, 15, 0x0001, Some(PcAsBase)),
            of(load, 15, 0xffff, Some(PcAsBase)),
            of(load, 0, 0x8000, in_list),
            of(load, 14, 0x7fff, None),
        ]);
    }
    // Each flag of the pop turned over by itself.
    out.extend([
        of(POP ^ block_mem::PRE, 13, 0x8000, Some(PcInLoadedList)),
        of(POP ^ block_mem::UP, 13, 0x8000, Some(PcInLoadedList)),
        of(POP ^ block_mem::WRITEBACK, 13, 0x8000, Some(PcInLoadedList)),
        of(POP ^ block_mem::LOAD, 13, 0x8000, None),
        of(POP, 13, 0x7fff, None),
    ]);
    out
}

/// Kinds whose bytes from 4 on are free, so that none of them counts.
fn free() -> Vec<Reasoned> {
    let records =
        FreeKind::ALL.map(|kind| [0, 0x0f, 0xff].map(|byte| Record::free(kind, [byte; 12])));
    let records = records.as_flattened().iter().zip(0..);
    let cond = |n: u8| if n.is_multiple_of(3) { AL } else { n % 16 };
    let named = records.map(|(r, n)| (r.with_cond(cond(n)), Some(Reason::NoNativeForm)));
    named.collect()
}

/// Where document 02's words leave some doubt: the page, the record's bytes by fours, and the
/// reason.
const DOUBTFUL: [(u32, [u32; 4], Option<Reason>); 21] = {
    use Reason::*;
    [
        (ROM, [0x010e_0000, 0x0000_0f00, 0, 0], Some(PcAsResult)),
        (ROM, [0x020e_0000, 0x0000_000f, 0, 0], None),
        (ROM, [0x000e_0000, 0x0a00_0f00, 0, 0], Some(PcAsResult)),
        (ROM, [0x000e_0000, 0, 0x0100_0300, 0], None),
        (ROM, [0x080e_0000, 0, 0x0200_0000, 0], Some(RegisterShift)),
        (ROM, [0x080e_0000, 0x0000_000f, 0, 0], None),
        (
            ROM,
            [0x080e_0000, 0x0000_0f00, 0x0200_0000, 0],
            Some(PcAsResult),
        ),
        (ROM, [0x090e_0000, 0, 0, 0x0080_0000], None),
        (
            ROM,
            [0x0900_0000, 0x1500_0f00, 0, 0x0080_0000],
            Some(PcAsBase),
        ),
        (
            ROM,
            [0x0900_0000, 0x0500_0000, 0, 0x0080_0000],
            Some(PcInLoadedList),
        ),
        (
            ROM,
            [0x090e_0000, 0x0900_0000, 0, 0x0080_0000],
            Some(UserRegisters),
        ),
        (ROM, [0x090e_0000, 0x0000_0f00, 0, 0], Some(EmptyList)),
        (ROM, [0x090e_0000, 0x1500_0000, 0, 0x0080_0000], None),
        (ROM, [0x040f_0000, 0, 0, 0], Some(ConditionalExit)),
        (ROM, [0x070e_0000, 0, 0, 0], Some(UnpairedHalf)),
        (ROM, [0x060e_0000, 0, 0, 0], Some(UnpairedHalf)),
        (ROM, [0x030e_0000, 0, 0, 0], Some(NoNativeForm)),
        (BIOS, [0x0400_0000, 0, 0, 0], Some(ConditionalExit)),
        (
            BIOS,
            [0x090e_0000, 0x0900_0000, 0, 0x0080_0000],
            Some(UserRegisters),
        ),
        (LIKE_BIOS, [0x040e_0000, 0, 0, 0], Some(BiosExit)),
        (RAM, [0x010e_0000, 0, 0, 0], None),
    ]
};

fn doubtful() -> Vec<Named> {
    let named = DOUBTFUL.map(|(page, words, reason)| {
        let bytes = words.map(u32::to_be_bytes);
        let bytes = bytes.as_flattened().try_into().expect("16 bytes");
        (page, Record(bytes), reason)
    });
    named.to_vec()
}

/// All of them: those that are no exits in ROM, and some of these in RAM and BIOS.
pub(super) fn named() -> Vec<Named> {
    let others = [alus(), mems(), transfers(), free()].concat();
    let some = |from: usize, step| -> Vec<Reasoned> {
        let some = others.iter().skip(from).step_by(step);
        some.copied().collect()
    };
    let lists = [
        doubtful(),
        exits(),
        in_page(ROM, &others),
        in_page(RAM, &some(0, 9)),
        in_page(BIOS, &some(1, 11)),
    ];
    lists.concat()
}
