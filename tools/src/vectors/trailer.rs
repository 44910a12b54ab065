//! Vectors for refusals 1 to 3: lengths, counts, distances, and sums that would wrap in 32 bits.

use super::{lone_blocks, Vectors};
use crate::file::{build, build_with_spare, trailer, File, TRAILER};

/// Lengths up to here are all tried.
const LENGTHS: usize = 64;

pub fn add(out: &mut Vectors) {
    let good = build(&lone_blocks(3, 0x0800_0000, false, true));
    out.accept(&good);
    accepted(out);
    cut(out, &good);
    filled(out);
    counts(out, &good);
    words(out, &good);
    wrapped_sums(out);
}

/// No blocks with every number of code bytes up to 32, and some blocks with spare code bytes.
fn accepted(out: &mut Vectors) {
    for length in TRAILER..=LENGTHS {
        let spare = vec![0xa5; length - TRAILER];
        out.accept(&build_with_spare(&[], &spare));
    }
    for code in [false, true] {
        for count in 1..4 {
            let blocks = lone_blocks(count, 0x0300_0000, true, code);
            out.accept(&build(&blocks));
            out.accept(&build_with_spare(&blocks, &[1, 2, 3]));
        }
    }
}

/// Fronts and ends of a good file, and the good file with a few bytes missing.
fn cut(out: &mut Vectors, good: &File) {
    let whole = good.bytes.len();
    for length in (0..=LENGTHS).chain(whole - 8..whole) {
        let end = with_bytes(good, &good.bytes[whole - length..]);
        let front = with_bytes(good, &good.bytes[..length]);
        if length < TRAILER {
            out.refuse(1, 0, &end);
            out.refuse(1, 0, &front);
        } else {
            out.refuse(3, 0, &end);
            // Its last 32 bytes are no trailer, and say anything.
            out.judge(front.bytes);
        }
    }
    let longer = with_bytes(good, &[&[0], &good.bytes[..]].concat());
    out.refuse(3, 0, &longer);
    let longer = with_bytes(good, &[&good.bytes[..], &[0]].concat());
    out.judge(longer.bytes);
}

fn with_bytes(file: &File, bytes: &[u8]) -> File {
    let bytes = bytes.to_vec();
    File {
        bytes,
        ..file.clone()
    }
}

/// Files of one byte value. Zeros have a wrong edition, ones too many blocks.
fn filled(out: &mut Vectors) {
    for length in 0..=LENGTHS {
        for (byte, refusal) in [(0, 3), (0xff, 2)] {
            let file = with_bytes(&build(&[]), &vec![byte; length]);
            out.refuse(if length < TRAILER { 1 } else { refusal }, 0, &file);
        }
    }
}

/// Both ends of the ranges of B and I; too large a count comes before every other fault.
fn counts(out: &mut Vectors, good: &File) {
    let edges = [
        (trailer::BLOCKS, 65_536),
        (trailer::INSTRUCTIONS, 1_048_576),
    ];
    for (word, most) in edges {
        let mut file = good.clone();
        let at = file.trailer_at(word);
        for value in [most, most - 1, good.word(at) + 1, good.word(at) - 1, 0] {
            file.set_word(at, value);
            out.refuse(3, 0, &file);
        }
        for value in [most + 1, most + 2, 2 * most, 1 << 31, u32::MAX] {
            file.set_word(at, value);
            out.refuse(2, 0, &file);
        }
        file.set_word(file.trailer_at(trailer::EDITION), 2);
        out.refuse(2, 0, &file);
    }
    let mut file = good.clone();
    for (word, most) in edges {
        file.set_word(file.trailer_at(word), most + 1);
    }
    out.refuse(2, 0, &file);
}

/// Every bit of every word flipped, and numbers near the right one.
fn words(out: &mut Vectors, good: &File) {
    for word in 0..TRAILER / 4 {
        let at = good.trailer_at(word);
        let right = good.word(at);
        let flipped = (0..32).map(|bit| right ^ 1 << bit);
        let near = [-16, -1, 1, 16].map(|n| right.wrapping_add_signed(n));
        for value in flipped.chain(near).chain([0, 1 << 31, u32::MAX]) {
            let mut file = good.clone();
            file.set_word(at, value);
            let over = match word {
                trailer::BLOCKS => value > 65_536,
                trailer::INSTRUCTIONS => value > 1_048_576,
                _ => false,
            };
            out.refuse(if over { 2 } else { 3 }, 0, &file);
        }
    }
}

/// Counts larger than the file, with a code byte count that makes the sum right modulo 2^32.
fn wrapped_sums(out: &mut Vectors) {
    for spare in [0, 32, 100] {
        for blocks in [0, 1, 4, 65_536u32] {
            for instructions in [0, 3, 1_048_576u32] {
                let mut file = build_with_spare(&[], &vec![0; spare]);
                let to_blocks = 32 + 16 * blocks;
                let to_instructions = to_blocks + 16 * instructions;
                let length = file.bytes.len() as u32;
                let code = length.wrapping_sub(to_instructions);
                let values = [1, to_blocks, blocks, to_instructions, instructions];
                for (word, value) in values.into_iter().enumerate() {
                    file.set_word(file.trailer_at(word), value);
                }
                file.set_word(file.trailer_at(trailer::CODE), code);
                if code > length {
                    out.refuse(3, 0, &file);
                } else {
                    // The records fit, but are zeros.
                    out.judge(file.bytes);
                }
            }
        }
    }
}
