//! Accepted block files made from a seed: sizes, places and shapes as `Params` asks.

mod closing;
pub mod closings;
pub mod forms;
mod instructions;
mod layout;
pub mod linked;
pub mod shells;
pub mod transfers;

use crate::file::{self, Block, File};
use crate::record::Record;
use crate::rng::Rng;
use layout::Span;

/// A group's instruction limit, near which grouping has its edges.
pub const GROUP_LIMIT: usize = 8_192;

/// Most instructions of one block.
pub const LONGEST: usize = 65_535;

const MOST_BLOCKS: usize = 65_536;

/// How many instructions each block has.
#[derive(Clone, Copy, Debug)]
pub enum Lengths {
    Between(usize, usize),
    /// Neighbours sum up to this number, one less or one more, time and again.
    Around(usize),
    /// Some blocks are longer than this number.
    Above(usize),
    /// Blocks 2k and 2k+1 have twice this number together.
    Mean(usize),
    /// These, time and again.
    Listed(&'static [usize]),
}

/// Where the blocks lie.
#[derive(Clone, Copy, Debug)]
pub enum Place {
    /// Scattered over the regions, touching, overlapping and apart.
    Anywhere,
    /// Evenly in runs from these addresses, most blocks touching the one before.
    Runs(&'static [u32]),
}

/// One run in the page whose blocks are grouped.
const ROM_RUN: Place = Place::Runs(&[0x0800_0000]);

#[derive(Clone, Copy, Debug)]
pub struct Params {
    pub seed: u64,
    /// Blocks wanted. `Place::Anywhere` leaves out those whose key was drawn before.
    pub blocks: usize,
    pub lengths: Lengths,
    pub place: Place,
    /// Blocks in a hundred that are Thumb.
    pub thumb: usize,
    /// Blocks in a hundred that lead on to a neighbour of their instruction set: with 100 of them,
    /// a run is one component for each set. The others lead anywhere.
    pub joined: usize,
    /// The neighbour is the block before, and the edges go the other way.
    pub backwards: bool,
    /// Blocks in a hundred that come with their code bytes.
    pub code: usize,
}

impl Params {
    /// Up to 12 blocks of up to 10 instructions.
    pub fn small(seed: u64) -> Params {
        let mut rng = Rng::new(!seed);
        Params {
            seed,
            blocks: rng.below(13),
            lengths: Lengths::Between(1, rng.pick(&[1, 2, 4, 10])),
            place: rng.pick(&[Place::Anywhere, Place::Anywhere, ROM_RUN]),
            thumb: rng.pick(&[0, 50, 50, 100]),
            joined: rng.pick(&[0, 50, 100]),
            backwards: rng.percent(50),
            code: rng.pick(&[0, 50, 100]),
        }
    }

    /// Components that pass the group limit several times.
    pub fn components(seed: u64) -> Params {
        Params {
            blocks: Rng::new(!seed).between(2, 40),
            lengths: Lengths::Around(GROUP_LIMIT),
            place: ROM_RUN,
            joined: 100,
            ..Params::small(seed)
        }
    }

    /// Blocks longer than the group limit among short ones.
    pub fn long(seed: u64) -> Params {
        Params {
            blocks: Rng::new(!seed).between(1, 6),
            lengths: Lengths::Above(GROUP_LIMIT),
            ..Params::components(seed)
        }
    }

    /// As many blocks as a file may have, in one chain.
    pub fn chain(seed: u64) -> Params {
        Params {
            blocks: MOST_BLOCKS,
            lengths: Lengths::Between(1, 2),
            thumb: Rng::new(!seed).pick(&[0, 100]),
            code: 0,
            ..Params::components(seed)
        }
    }

    /// As many blocks and instructions as a file may have, with code bytes.
    pub fn largest(seed: u64) -> Params {
        const STARTS: [u32; 8] = [
            0x0000_0000,
            0x0200_0000,
            0x0300_0000,
            0x0800_0000,
            0x0840_0000,
            0x0880_0000,
            0x08c0_0000,
            0x0900_0000,
        ];
        Params {
            seed,
            blocks: MOST_BLOCKS,
            lengths: Lengths::Mean(16),
            place: Place::Runs(&STARTS),
            thumb: 50,
            joined: 90,
            backwards: false,
            code: 40,
        }
    }
}

/// The blocks of `params`, in file order.
pub fn blocks(params: &Params) -> Vec<Block> {
    blocks_of(params, |rng, spans, i| records(rng, spans, i, params))
}

/// Blocks that lie as `params` asks and have these records.
fn blocks_of(
    params: &Params,
    records: impl Fn(&mut Rng, &[Span], usize) -> Vec<Record>,
) -> Vec<Block> {
    let rng = &mut Rng::new(params.seed);
    let spans = layout::spans(rng, params);
    (0..spans.len())
        .map(|i| {
            let records = records(rng, &spans, i);
            let Span { address, thumb, .. } = spans[i];
            let mut block = Block {
                address,
                thumb,
                code: None,
                records,
            };
            block.code = rng
                .percent(params.code)
                .then(|| rng.bytes(block.byte_len()));
            block
        })
        .collect()
}

/// Plain records, perhaps with an exit among them, then records that close the block.
fn records(rng: &mut Rng, spans: &[Span], i: usize, params: &Params) -> Vec<Record> {
    let count = spans[i].count;
    let mut records: Vec<_> = (0..count)
        .map(|_| instructions::plain(rng, spans, i))
        .collect();
    if count > 2 && rng.percent(25) {
        let early = closing::exit(rng, spans, i);
        let at = rng.below(count - early.len());
        records[at..at + early.len()].copy_from_slice(&early);
    }
    let last = if rng.percent(params.joined) {
        closing::lead_on(rng, spans, i, params.backwards)
    } else {
        closing::any(rng, spans, i)
    };
    // A block of one instruction has room for the last record only.
    for (place, record) in records.iter_mut().rev().zip(last.into_iter().rev()) {
        *place = record;
    }
    records
        .into_iter()
        .map(|r| r.with_cost(instructions::cost(rng)))
        .collect()
}

/// The file of `params`. Some have spare code bytes and blocks that share code bytes.
pub fn file(params: &Params) -> File {
    let blocks = blocks(params);
    let rng = &mut Rng::new(params.seed ^ 0x5ca1_ab1e);
    let spare = if rng.percent(30) { rng.below(9) } else { 0 };
    let mut file = file::build_with_spare(&blocks, &rng.bytes(spare));
    if rng.percent(30) {
        let present = (0..blocks.len()).filter(|&i| blocks[i].code.is_some());
        for i in present {
            let offset = rng.below(file.code_len - blocks[i].byte_len() + 1);
            file.set_word(file.block_at(i, file::block::OFFSET), offset as u32);
        }
    }
    file
}
