//! Vectors for refusal 7: both ends of every field of every kind and form, and all that is zero.

use super::{places, turn_places, Vectors};
use crate::file::{build, Block, File};
use crate::record::{Record, AL};

/// What a byte of a record may be.
#[derive(Clone, Copy)]
enum Rule {
    Zero,
    Free,
    Below(u8),
    /// Even, up to this number.
    Even(u8),
    /// Any of these bits.
    Bits(u8),
    /// The form that the other bytes go by.
    Form(u8),
}

use Rule::{Below, Bits, Even, Form, Free, Zero};

const FLAG: Rule = Below(2);
const REGISTER: Rule = Below(16);

/// A kind with the rules of its bytes 4 to 15; an Alu or Mem in each of its three forms.
type Shape = (u8, [Rule; 12]);

#[rustfmt::skip]
fn shapes() -> Vec<Shape> {
    let r = REGISTER;
    let (op, shift) = (Below(16), Below(4));
    let five = Bits(0x1f);
    let mut shapes = vec![
        (0, [op, FLAG, r, r, Form(0), Even(30), Zero, Zero, Free, Free, Free, Free]),
        (0, [op, FLAG, r, r, Form(1), r, shift, Below(32), Zero, Zero, Zero, Zero]),
        (0, [op, FLAG, r, r, Form(2), r, shift, r, Zero, Zero, Zero, Zero]),
        (1, [FLAG, FLAG, r, r, r, r, Zero, Zero, Zero, Zero, Zero, Zero]),
        (2, [FLAG, FLAG, FLAG, r, r, r, r, Zero, Zero, Zero, Zero, Zero]),
        (4, [r, Zero, Zero, Zero, Zero, Zero, Zero, Zero, Zero, Zero, Zero, Zero]),
        (5, [FLAG, Zero, Zero, Zero, Zero, Zero, Zero, Zero, Bits(0xfe), Free, Free, Free]),
        (6, [Zero, Zero, Zero, Zero, Zero, Zero, Zero, Zero, Free, Free, Free, Free]),
        (7, [Zero, Zero, Zero, Zero, Zero, Zero, Zero, Zero, Free, Free, Zero, Zero]),
        (8, [five, Below(3), r, r, Form(0), Zero, Zero, Zero, Free, Free, Zero, Zero]),
        (8, [five, Below(3), r, r, Form(1), r, shift, Below(32), Zero, Zero, Zero, Zero]),
        (8, [five, Below(3), r, r, Form(2), r, shift, r, Zero, Zero, Zero, Zero]),
        (9, [five, Zero, r, Zero, Zero, Zero, Zero, Zero, Free, Free, Zero, Zero]),
    ];
    let free = [3, 10, 11, 12, 13, 14];
    shapes.extend(free.map(|kind| (kind, [Free; 12])));
    shapes
}

impl Rule {
    /// Both ends of what is accepted.
    fn ends(self) -> [u8; 2] {
        match self {
            Zero => [0, 0],
            Free => [0, 255],
            Below(end) => [0, end - 1],
            Even(most) => [0, most],
            Bits(mask) => [0, mask],
            Form(form) => [form, form],
        }
    }

    /// The smallest value that is refused, each bit that none may have, and the largest.
    fn refused(self) -> Vec<u8> {
        let bits = || (0..8).map(|n| 1u8 << n);
        let mut values: Vec<u8> = match self {
            Zero => bits().collect(),
            Free => return vec![],
            Below(end) => [end]
                .into_iter()
                .chain(bits().filter(|&b| b > end))
                .collect(),
            Even(most) => vec![1, most - 1, most + 1, 32, 64, 128],
            Bits(mask) => bits().filter(|b| b & mask == 0).collect(),
            Form(_) => vec![3, 4, 128],
        };
        values.push(255);
        values
    }
}

/// Three records in two blocks, so that there is a first, a middle and a last.
fn base() -> File {
    let block = |address, thumb, records| Block {
        address,
        thumb,
        code: None,
        records,
    };
    build(&[
        block(0x0800_0000, true, vec![Record::bx(1), Record::bx(2)]),
        block(0x0800_0004, false, vec![Record::bx(3)]),
    ])
}

fn with(base: &File, i: usize, record: &[u8; 16]) -> File {
    let mut copy = base.clone();
    let at = copy.instruction_at(i);
    copy.bytes[at..at + 16].copy_from_slice(record);
    copy
}

pub fn add(out: &mut Vectors) {
    let base = &base();
    out.accept(base);
    for shape in shapes() {
        whole(out, base, &shape);
        heads(out, base, &shape);
        bytes(out, base, &shape);
    }
    kinds(out, base);
}

/// The shape's record with each byte at the lower (0) or upper (1) end of its range.
fn at_ends((kind, rules): &Shape, end: impl Fn(usize) -> usize) -> [u8; 16] {
    let mut record = [0; 16];
    record[0] = *kind;
    record[1] = AL;
    for (n, rule) in rules.iter().enumerate() {
        record[4 + n] = rule.ends()[end(n)];
    }
    record
}

/// All fields at their lower ends, all at their upper ends, and every other at either end.
fn whole(out: &mut Vectors, base: &File, shape: &Shape) {
    for i in places(base.instructions) {
        out.accept(&with(base, i, &at_ends(shape, |_| 0)));
        out.accept(&with(base, i, &at_ends(shape, |_| 1)));
        out.accept(&with(base, i, &at_ends(shape, |n| (n + i) % 2)));
    }
}

/// Conditions 0 to 15, and any cost.
fn heads(out: &mut Vectors, base: &File, shape: &Shape) {
    let mut record = at_ends(shape, |_| 1);
    for (turn, cond) in [16, 32, 64, 128, 255].into_iter().enumerate() {
        record[1] = cond;
        for i in turn_places(turn, places(base.instructions)) {
            out.refuse(7, i, &with(base, i, &record));
        }
    }
    for i in places(base.instructions) {
        record[1] = 15;
        out.accept(&with(base, i, &record));
        record[1] = 0;
        record[2..4].fill(0xff);
        out.accept(&with(base, i, &record));
    }
}

fn bytes(out: &mut Vectors, base: &File, shape: &Shape) {
    let places = places(base.instructions);
    for (n, rule) in shape.1.iter().enumerate() {
        let record = |value, end| {
            let mut record = at_ends(shape, |_| end);
            record[4 + n] = value;
            record
        };
        if !matches!(rule, Zero | Form(_)) {
            for i in places {
                out.accept(&with(base, i, &record(rule.ends()[1], 0)));
            }
        }
        for (turn, value) in rule.refused().into_iter().enumerate() {
            for i in turn_places(turn, places) {
                out.refuse(7, i, &with(base, i, &record(value, turn % 2)));
            }
        }
    }
}

fn kinds(out: &mut Vectors, base: &File) {
    for i in places(base.instructions) {
        for kind in [15, 16, 32, 64, 128, 255] {
            let mut record = [0; 16];
            record[0] = kind;
            out.refuse(7, i, &with(base, i, &record));
            record[4..].fill(0xff);
            out.refuse(7, i, &with(base, i, &record));
        }
    }
}
