//! Damage to block files: aimed changes of bytes and words, swapped and dropped records, cuts.

use crate::file::{File, RECORD, TRAILER};
use crate::rng::Rng;

/// Numbers at which some rule of the file turns.
const EDGES: [u32; 16] = [
    0,
    1,
    2,
    3,
    4,
    15,
    16,
    32,
    65_535,
    65_536,
    65_537,
    1_048_576,
    1_048_577,
    0x7fff_ffff,
    0x8000_0000,
    0xffff_ffff,
];

/// A copy of the file with `faults` changes, of which some may leave it as it is.
pub fn damaged(rng: &mut Rng, file: &File, faults: usize) -> Vec<u8> {
    let mut copy = file.clone();
    for _ in 0..faults {
        match rng.below(8) {
            0..=3 => change_byte(rng, &mut copy),
            4 | 5 => change_word(rng, &mut copy),
            6 => swap_records(rng, &mut copy),
            _ => drop_record(rng, &mut copy),
        }
    }
    // Cutting comes last: the places of records are those of the whole file.
    if rng.percent(10) {
        cut(rng, &mut copy.bytes);
    }
    copy.bytes
}

/// A damaged copy of a file, the same on every run; most are refused.
pub fn damaged_copy(file: &File) -> Vec<u8> {
    let rng = &mut Rng::new(file.bytes.len() as u64);
    let faults = rng.between(1, 4);
    damaged(rng, file, faults)
}

/// Offset of a record or of the trailer's half, the ends of each part more often than the middle.
fn record_at(rng: &mut Rng, file: &File) -> usize {
    match rng.below(8) {
        0..=3 if file.instructions > 0 => file.instruction_at(end_or_any(rng, file.instructions)),
        4..=6 if file.blocks > 0 => file.block_at(end_or_any(rng, file.blocks), 0),
        _ => file.trailer_at(rng.pick(&[0, 4])),
    }
}

fn end_or_any(rng: &mut Rng, count: usize) -> usize {
    match rng.below(4) {
        0 => 0,
        1 => count - 1,
        _ => rng.below(count),
    }
}

fn change_byte(rng: &mut Rng, file: &mut File) {
    let at = record_at(rng, file) + rng.below(RECORD);
    file.bytes[at] = match rng.below(3) {
        0 => file.bytes[at] ^ 1 << rng.below(8),
        1 => rng.pick(&EDGES) as u8,
        _ => rng.byte(256),
    };
}

fn change_word(rng: &mut Rng, file: &mut File) {
    let at = record_at(rng, file) + 4 * rng.below(4);
    let value = match rng.below(3) {
        0 => rng.pick(&EDGES),
        1 => file.word(at).wrapping_add(rng.pick(&EDGES)),
        _ => file.word(at).wrapping_sub(rng.pick(&EDGES)),
    };
    file.set_word(at, value);
}

/// Swaps two records, most often of one part, where there are two at all.
fn swap_records(rng: &mut Rng, file: &mut File) {
    let (a, b) = (record_at(rng, file), record_at(rng, file));
    for n in 0..RECORD {
        file.bytes.swap(a + n, b + n);
    }
}

/// Takes a record out and writes the trailer to match, so that the counts no longer sum up.
fn drop_record(rng: &mut Rng, file: &mut File) {
    let at = record_at(rng, file);
    if at >= file.trailer_at(0) {
        return;
    }
    let mut words: Vec<u32> = (0..TRAILER / 4)
        .map(|n| file.word(file.trailer_at(n)))
        .collect();
    let is_block = at >= file.block_at(0, 0);
    // Word by word: a block's record counts in all three distances, an instruction's in two.
    let less: [u32; 8] = if is_block {
        [0, 16, 1, 16, 0, 16, 0, 16]
    } else {
        [0, 0, 0, 16, 1, 16, 0, 16]
    };
    for (word, less) in words.iter_mut().zip(less) {
        *word = word.wrapping_sub(less);
    }
    file.bytes.drain(at..at + RECORD);
    file.blocks -= usize::from(is_block);
    file.instructions -= usize::from(!is_block);
    for (n, word) in words.into_iter().enumerate() {
        file.set_word(file.trailer_at(n), word);
    }
}

/// Shortens the file at either end, or puts bytes before or after it.
fn cut(rng: &mut Rng, bytes: &mut Vec<u8>) {
    let n = rng.below(40);
    let at = if rng.percent(50) { 0 } else { bytes.len() };
    match rng.below(3) {
        0 => bytes.truncate(bytes.len().saturating_sub(n)),
        1 => drop(bytes.drain(..n.min(bytes.len()))),
        _ => drop(bytes.splice(at..at, rng.bytes(n))),
    }
}
