//! Records that close a block, or leave it early: one, or the two of a fused Thumb BL pair.

use super::instructions::{self, branch, bx, condition, half, not_always, register, target};
use super::layout::Span;
use crate::record::{block_mem, mem, FreeKind, Offset, Operand, Record, AL};
use crate::rng::Rng;

/// An exit that is always taken: a branch, a pair, a Bx or a pop of PC.
pub fn exit(rng: &mut Rng, spans: &[Span], i: usize) -> Vec<Record> {
    match rng.below(4) {
        0 => vec![branch(rng, spans, i)],
        1 => pair(rng, spans, i),
        2 => vec![bx(rng)],
        _ => vec![pop(rng)],
    }
}

/// Exits of each sort, conditional ones, halves of a pair, or a plain record.
pub fn any(rng: &mut Rng, spans: &[Span], i: usize) -> Vec<Record> {
    let record = match rng.below(16) {
        0..=3 => return exit(rng, spans, i),
        4 => half(rng),
        5 => bx(rng),
        6 => pop(rng),
        7 => Record::alu(13, false, 15, 0, Operand::Value { value: 8, ror: 0 }),
        8 => Record::mem(mem::LOAD | mem::UP, 2, 15, register(rng), Offset::Value(4)),
        9 => Record::free(rng.pick(&[FreeKind::Swi, FreeKind::Undefined]), [0; 12]),
        10..=12 => branch(rng, spans, i),
        _ => return vec![instructions::plain(rng, spans, i)],
    };
    vec![record.with_cond(condition(rng))]
}

/// A closing with an exit to the next block of the same instruction set (the one before where
/// `backwards`); where there is none, to the one on the other side or to the block itself.
pub fn lead_on(rng: &mut Rng, spans: &[Span], i: usize, backwards: bool) -> Vec<Record> {
    let own = &spans[i];
    let same = |s: &&Span| s.thumb == own.thumb;
    let after = || spans[i + 1..].iter().find(same);
    let before = || spans[..i].iter().rfind(same);
    let to = if backwards {
        before().or_else(after)
    } else {
        after().or_else(before)
    };
    let to = to.unwrap_or(own);
    let branch = Record::branch(rng.percent(30), to.address);
    match rng.below(4) {
        0 if to.address == own.end() => vec![fall_through(rng)],
        1 if to.thumb && own.count > 1 => pair_to(rng, to.key()),
        2 => vec![branch.with_cond(not_always(rng))],
        _ => vec![branch],
    }
}

/// A closing of `own` that leads to `to`, or to where `to` would be in `own`'s instruction set if no
/// exit leads to `to` itself. It goes on to the next block too where `both` asks so.
pub fn lead_to(rng: &mut Rng, own: &Span, to: &Span, both: bool) -> Vec<Record> {
    let branch = Record::branch(rng.percent(30), to.address);
    if both && own.thumb == to.thumb {
        return vec![branch.with_cond(not_always(rng))];
    }
    let pairs = to.thumb && own.count > 1;
    match rng.below(4) {
        _ if pairs && !own.thumb => pair_to(rng, to.key()),
        0 if own.thumb == to.thumb && to.address == own.end() => vec![fall_through(rng)],
        1 if pairs => pair_to(rng, to.key()),
        2 => vec![branch.with_cond(not_always(rng))],
        _ => vec![branch],
    }
}

/// A record after which the next one follows.
fn fall_through(rng: &mut Rng) -> Record {
    let (rd, rn) = (rng.byte(15), register(rng));
    let operand = Operand::Value { value: 1, ror: 0 };
    Record::alu(rng.byte(16), true, rd, rn, operand).with_cond(condition(rng))
}

/// A pop with PC in its list.
fn pop(rng: &mut Rng) -> Record {
    let flags = block_mem::LOAD | block_mem::UP | block_mem::WRITEBACK;
    let rn = rng.pick(&[13, 13, 13, 0, 15]);
    Record::block_mem(flags, rn, 0x8000 | rng.next_u32() as u16)
}

fn pair(rng: &mut Rng, spans: &[Span], i: usize) -> Vec<Record> {
    let target = target(rng, spans, i);
    pair_to(rng, target)
}

/// Both halves of a Thumb BL to `target`; they fuse under any condition.
fn pair_to(rng: &mut Rng, target: u32) -> Vec<Record> {
    let off = rng.next_u32() as u16;
    let lr_partial = target.wrapping_sub(u32::from(off) * 2);
    let cond = if rng.percent(80) { AL } else { not_always(rng) };
    let halves = [Record::thumb_bl_high(lr_partial), Record::thumb_bl_low(off)];
    halves.map(|r| r.with_cond(cond)).to_vec()
}
