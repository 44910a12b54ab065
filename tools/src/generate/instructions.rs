//! Random instruction records of every kind and form.

use super::layout::Span;
use crate::record::{block_mem, FreeKind, Offset, Operand, Record, Shifted, AL};
use crate::rng::Rng;

/// A record that does not leave its block without a condition, except through the interpreter or as
/// a chance pair: so that long blocks keep most of their text.
pub fn plain(rng: &mut Rng, spans: &[Span], i: usize) -> Record {
    let record = match rng.below(64) {
        0..=24 => alu(rng),
        25..=39 => mem(rng),
        40..=45 => block_mem(rng),
        46..=49 => mul(rng),
        50..=53 => mul_long(rng),
        54..=56 => return branch(rng, spans, i).with_cond(not_always(rng)),
        57 => return bx(rng).with_cond(not_always(rng)),
        58..=59 => half(rng),
        _ => free(rng),
    };
    record.with_cond(condition(rng))
}

/// A cost of 0, a usual one, or a large one.
pub fn cost(rng: &mut Rng) -> u16 {
    match rng.below(8) {
        0 => 0,
        1 => rng.next_u32() as u16,
        2 => u16::MAX - rng.below(2) as u16,
        _ => rng.between(1, 20) as u16,
    }
}

pub fn condition(rng: &mut Rng) -> u8 {
    if rng.percent(50) {
        AL
    } else {
        rng.byte(16)
    }
}

/// Any condition but Al.
pub fn not_always(rng: &mut Rng) -> u8 {
    (AL + 1 + rng.byte(15)) % 16
}

/// A register, with PC, LR and SP more often than the others.
pub fn register(rng: &mut Rng) -> u8 {
    match rng.below(5) {
        0 => rng.pick(&[13, 14, 15]),
        _ => rng.byte(16),
    }
}

fn flag(rng: &mut Rng) -> bool {
    rng.percent(50)
}

fn value(rng: &mut Rng) -> u32 {
    match rng.below(3) {
        0 => rng.pick(&[0, 1, 0xff, 0x7fff_ffff, 0x8000_0000, 0xffff_ffff]),
        1 => rng.below(256) as u32,
        _ => rng.next_u32(),
    }
}

fn shifted(rng: &mut Rng) -> Shifted {
    let (rm, kind) = (register(rng), rng.byte(4));
    if rng.percent(70) {
        let amount = match rng.below(4) {
            0 => 0,
            1 => rng.pick(&[1, 31]),
            _ => rng.byte(32),
        };
        Shifted::ByAmount { rm, kind, amount }
    } else {
        let rs = register(rng);
        Shifted::ByRegister { rm, kind, rs }
    }
}

pub fn alu(rng: &mut Rng) -> Record {
    let operand = if flag(rng) {
        let ror = if flag(rng) { 0 } else { 2 * rng.byte(16) };
        let value = value(rng);
        Operand::Value { value, ror }
    } else {
        Operand::Register(shifted(rng))
    };
    let (op, s) = (rng.byte(16), flag(rng));
    Record::alu(op, s, register(rng), register(rng), operand)
}

pub fn mem(rng: &mut Rng) -> Record {
    let offset = if flag(rng) {
        Offset::Value(match rng.below(3) {
            0 => 0,
            1 => rng.below(4096) as u16,
            _ => rng.next_u32() as u16,
        })
    } else {
        Offset::Register(shifted(rng))
    };
    let (flags, width) = (rng.byte(32), rng.byte(3));
    Record::mem(flags, width, register(rng), register(rng), offset)
}

fn block_mem(rng: &mut Rng) -> Record {
    let rn = register(rng);
    let rlist = match rng.below(6) {
        0 => 0,
        1 => 1 << rng.below(16),
        // The base with others, so that it is listed first in some and later in others.
        2 | 3 => 1 << rn | rng.next_u32() as u16,
        _ => rng.next_u32() as u16,
    };
    let mut flags = rng.byte(32);
    if rng.percent(70) {
        flags &= !block_mem::S_BIT;
    }
    Record::block_mem(flags, rn, rlist)
}

fn mul(rng: &mut Rng) -> Record {
    let (acc, s, rd, rn) = (flag(rng), flag(rng), register(rng), register(rng));
    Record::mul(acc, s, rd, rn, register(rng), register(rng))
}

pub fn mul_long(rng: &mut Rng) -> Record {
    let flags = [flag(rng), flag(rng), flag(rng)];
    let registers = [register(rng), register(rng), register(rng), register(rng)];
    Record::mul_long(flags, registers)
}

pub fn bx(rng: &mut Rng) -> Record {
    Record::bx(register(rng))
}

/// One half of a Thumb BL pair.
pub fn half(rng: &mut Rng) -> Record {
    if flag(rng) {
        Record::thumb_bl_high(value(rng))
    } else {
        Record::thumb_bl_low(rng.next_u32() as u16)
    }
}

/// A record of a kind whose bytes 4 to 15 are free.
fn free(rng: &mut Rng) -> Record {
    let rest = std::array::from_fn(|_| rng.byte(256));
    Record::free(rng.pick(&FreeKind::ALL), rest)
}

/// A branch to where blocks often are: the block itself, its end, its inside, others; or to
/// nowhere.
pub fn branch(rng: &mut Rng, spans: &[Span], i: usize) -> Record {
    let target = target(rng, spans, i) & !1;
    let link = rng.percent(30);
    Record::branch(link, target)
}

pub fn target(rng: &mut Rng, spans: &[Span], i: usize) -> u32 {
    let own = &spans[i];
    match rng.below(10) {
        0 => own.address,
        1 => own.end(),
        2 => own
            .address
            .wrapping_add(rng.below(own.count) as u32 * own.size()),
        3 => rng.next_u32(),
        4..=6 => rng.pick(spans).key(),
        _ => {
            let near = i.saturating_sub(2) + rng.below(5);
            spans[near.min(spans.len() - 1)].key()
        }
    }
}
