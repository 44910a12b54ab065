//! Buffers to lend, filled with a pattern, so that every number and byte that a call changes shows.

/// Work number `n` before a call: not 0, and no two are alike.
fn number(n: usize) -> u32 {
    !(n as u32)
}

/// Bytes of a text before a call, time and again: none that a text has, for no UTF-8 has a byte
/// from the first of them on, and each unlike its neighbours.
const BYTES: [u8; 11] = [
    0xf5, 0xf6, 0xf7, 0xf8, 0xf9, 0xfa, 0xfb, 0xfc, 0xfd, 0xfe, 0xff,
];

/// Length `n` before a call: longer than any text, and no two are alike.
fn length(n: usize) -> u64 {
    !(n as u64)
}

pub fn work(len: usize) -> Vec<u32> {
    (0..len).map(number).collect()
}

pub fn text(len: usize) -> Vec<u8> {
    // Doubled as a whole: texts may be long, and are made for every call.
    let mut text = BYTES.to_vec();
    while text.len() < len {
        text.extend_from_within(..);
    }
    text.truncate(len);
    text
}

pub fn lengths(len: usize) -> Vec<u64> {
    (0..len).map(length).collect()
}

/// The first number that is wrong, where so many must have become 0 and the others stayed.
pub fn wrong_number(work: &[u32], cleared: usize) -> Option<usize> {
    let right = |n: usize| if n < cleared { 0 } else { number(n) };
    (0..work.len()).find(|&n| work[n] != right(n))
}

/// The first byte that is wrong, where these must stand at the front and the others have stayed.
pub fn wrong_byte(text: &[u8], front: &[u8]) -> Option<usize> {
    let mut right = self::text(text.len());
    right[..front.len()].copy_from_slice(front);
    // As a whole first, which takes far less time.
    match text == right {
        true => None,
        false => (0..text.len()).find(|&n| text[n] != right[n]),
    }
}

/// The first length that is wrong, where these must stand at the front and the others have stayed.
pub fn wrong_length(lengths: &[u64], front: &[u64]) -> Option<usize> {
    let right = |n: usize| front.get(n).copied().unwrap_or_else(|| length(n));
    (0..lengths.len()).find(|&n| lengths[n] != right(n))
}
