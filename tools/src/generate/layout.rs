//! Addresses, instruction sets and lengths of generated blocks.

use super::{Lengths, Params, Place, LONGEST};
use crate::rng::Rng;
use std::collections::BTreeMap;

/// Most instructions of a file.
const MOST_INSTRUCTIONS: usize = 1_048_576;

/// BIOS, RAM, ROM and its mirrors, pages whose region is that of BIOS or ROM, and both ends.
const PAGES: [u32; 16] = [
    0x00, 0x02, 0x03, 0x07, 0x08, 0x08, 0x08, 0x08, 0x08, 0x09, 0x0d, 0x10, 0x18, 0x28, 0xfe, 0xff,
];

/// A block before it has records.
#[derive(Clone, Copy, Debug)]
pub struct Span {
    pub address: u32,
    pub thumb: bool,
    pub count: usize,
}

impl Span {
    pub fn size(&self) -> u32 {
        if self.thumb {
            2
        } else {
            4
        }
    }

    /// The address after the block, which is 0 for a block that ends at 2^32.
    pub fn end(&self) -> u32 {
        self.address.wrapping_add(self.count as u32 * self.size())
    }

    pub fn key(&self) -> u32 {
        self.address | self.thumb as u32
    }

    /// A span at `wished`, aligned, and moved down where it would pass 2^32.
    fn at(wished: u32, thumb: bool, count: usize) -> Span {
        let mut span = Span {
            address: 0,
            thumb,
            count,
        };
        let highest = 0u32.wrapping_sub(count as u32 * span.size());
        span.address = wished.min(highest) & !(span.size() - 1);
        span
    }
}

/// The blocks of `params` with rising keys.
pub fn spans(rng: &mut Rng, params: &Params) -> Vec<Span> {
    let counts = counts(rng, params.blocks, params.lengths);
    match params.place {
        Place::Anywhere => scattered(rng, &counts, params.thumb),
        Place::Runs(starts) => runs(rng, &counts, params.thumb, starts),
    }
}

/// The lengths of `blocks` blocks, or of as many as the most instructions of a file allow.
pub fn counts(rng: &mut Rng, blocks: usize, lengths: Lengths) -> Vec<usize> {
    let mut counts = Vec::with_capacity(blocks);
    let (mut part, mut total) = (0, 0);
    while counts.len() < blocks {
        let count = match lengths {
            Lengths::Between(least, most) => rng.between(least, most),
            Lengths::Around(limit) => around(rng, limit, part),
            Lengths::Above(limit) => above(rng, limit),
            Lengths::Mean(mean) if counts.len() % 2 == 0 => rng.between(1, 2 * mean - 1),
            Lengths::Mean(mean) => 2 * mean - counts[counts.len() - 1],
            Lengths::Listed(list) => list[counts.len() % list.len()],
        };
        if let Lengths::Around(limit) = lengths {
            part = if part + count < limit - 1 {
                part + count
            } else {
                0
            };
        }
        total += count;
        if total > MOST_INSTRUCTIONS {
            break;
        }
        counts.push(count);
    }
    counts
}

/// A length that carries a part of `part` instructions on, or to the limit, one less or one more.
fn around(rng: &mut Rng, limit: usize, part: usize) -> usize {
    let count = rng.between(1, limit / 3);
    if part + count < limit - 1 {
        return count;
    }
    limit + rng.below(3) - (part + 1)
}

fn above(rng: &mut Rng, limit: usize) -> usize {
    match rng.below(9) {
        0 => LONGEST,
        1 => limit,
        2 => limit + 1,
        3 => rng.between(limit + 1, 2 * limit),
        _ => rng.between(1, 10),
    }
}

fn scattered(rng: &mut Rng, counts: &[usize], thumb: usize) -> Vec<Span> {
    let mut drawn: Vec<Span> = Vec::new();
    let mut by_key = BTreeMap::new();
    for &count in counts {
        let wished = match drawn.last() {
            Some(_) if rng.percent(70) => near(rng, &drawn),
            _ => far(rng),
        };
        let span = Span::at(wished, rng.percent(thumb), count);
        drawn.push(span);
        by_key.entry(span.key()).or_insert(span);
    }
    by_key.into_values().collect()
}

/// After a block drawn before, at it (for the other instruction set), within it, or a little apart.
fn near(rng: &mut Rng, drawn: &[Span]) -> u32 {
    let other = rng.pick(drawn);
    match rng.below(8) {
        0..=3 => other.end(),
        4 => other.address,
        5 => other.address.wrapping_add(rng.below(16) as u32),
        6 => other.end().wrapping_add(rng.below(16) as u32),
        _ => other.address.wrapping_sub(rng.below(64) as u32),
    }
}

fn far(rng: &mut Rng) -> u32 {
    let page = rng.pick(&PAGES) << 24;
    let within = match rng.below(4) {
        0 => 0,
        1 => rng.below(256) as u32,
        // The page's last bytes, so that a block reaches or touches the next page.
        2 => 0x00ff_ffff - rng.below(64) as u32,
        _ => rng.next_u32() >> 8,
    };
    page | within
}

fn runs(rng: &mut Rng, counts: &[usize], percent: usize, starts: &[u32]) -> Vec<Span> {
    let share = counts.len().div_ceil(starts.len()).max(1);
    let mut spans: Vec<Span> = Vec::with_capacity(counts.len());
    for (part, &start) in counts.chunks(share).zip(starts) {
        let mut next = start;
        let mut thumb = rng.percent(percent);
        for &count in part {
            // Seldom drawn anew, so that blocks fall through to one of their own set.
            if rng.percent(10) {
                thumb = rng.percent(percent);
            }
            // Rounded up: an ARM block may follow a Thumb block that ends between two words.
            let span = Span::at(next + if thumb { 0 } else { 2 }, thumb, count);
            next = span.end() + if rng.percent(3) { 4 } else { 0 };
            spans.push(span);
        }
    }
    spans
}
