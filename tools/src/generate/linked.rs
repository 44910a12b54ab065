//! Files whose blocks are linked by a graph: most exits lead to where the graph says.

use super::closing;
use super::instructions;
use super::layout::{self, Span};
use super::{Lengths, GROUP_LIMIT, LONGEST, MOST_BLOCKS};
use crate::file::{self, Block, File};
use crate::record::{FreeKind, Record};
use crate::rng::Rng;

/// The block that block `i` of `n` leads to.
#[derive(Clone, Copy, Debug, PartialEq, Eq)]
pub enum Graph {
    /// The next one: roots become as deep as there are blocks.
    Rising,
    /// The one before.
    Falling,
    /// The first one by a condition, and the next one where it fails: the deepest is asked for
    /// again and again.
    First,
    Last,
    /// From both ends to the middle: 0, n-1, 1, n-2 and so on.
    Zigzag,
    /// A fixed number of blocks ahead, around the end.
    Stride,
    /// Half the number, so that the first is reached from everywhere in few steps.
    Tree,
    Anywhere,
}

pub const GRAPHS: [Graph; 8] = [
    Graph::Rising,
    Graph::Falling,
    Graph::First,
    Graph::Last,
    Graph::Zigzag,
    Graph::Stride,
    Graph::Tree,
    Graph::Anywhere,
];

impl Graph {
    fn target(self, rng: &mut Rng, i: usize, n: usize) -> usize {
        match self {
            Graph::Rising => (i + 1).min(n - 1),
            Graph::Falling => i.saturating_sub(1),
            Graph::First => 0,
            Graph::Last => n - 1,
            Graph::Zigzag if i < n / 2 => n - 1 - i,
            Graph::Zigzag => n - i,
            Graph::Stride => (i + n / 3 + 1) % n,
            Graph::Tree => i / 2,
            Graph::Anywhere => rng.below(n),
        }
        .min(n - 1)
    }
}

/// The instruction sets of the blocks.
#[derive(Clone, Copy, Debug, PartialEq, Eq)]
pub enum Sets {
    Arm,
    Thumb,
    /// One or the other by chance.
    Either,
    /// An ARM block and a Thumb block at every address.
    Both,
}

pub const SETS: [Sets; 4] = [Sets::Arm, Sets::Thumb, Sets::Either, Sets::Both];

#[derive(Clone, Copy, Debug)]
pub struct Linked {
    pub seed: u64,
    pub blocks: usize,
    pub lengths: Lengths,
    pub sets: Sets,
    pub graph: Graph,
    /// Where the first block is, unless the blocks end at `end`.
    pub start: u32,
    /// The blocks are moved so that the last one ends here, 0 for 2^32.
    pub end: Option<u32>,
    /// Blocks in a hundred that lead anywhere, or nowhere.
    pub strays: usize,
}

/// Starts of runs: ROM, where only its page counts, and pages that share its region.
const STARTS: [u32; 8] = [
    0x0800_0000,
    0x0800_0000,
    0x0800_0100,
    0x0880_0000,
    0x1800_0000,
    0x0200_0000,
    0x0300_7f00,
    0x0000_0000,
];

/// Ends a little after a page of ROM or at the end of addresses.
const ENDS: [Option<u32>; 8] = [
    None,
    None,
    None,
    None,
    None,
    Some(0x0800_0020),
    Some(0x0900_0020),
    Some(0),
];

/// Lengths of the blocks of one component at the limit of a part.
const LIMITS: [&[usize]; 14] = [
    &[8_191, 1],
    &[8_192, 1],
    &[1, 8_191],
    &[1, 8_192],
    &[8_193],
    &[8_193, 1],
    &[8_191, 2],
    &[4_096, 4_096, 1],
    &[4_096, 4_097, 4_095],
    &[8_191, 1, 8_192, 1],
    &[8_190, 1, 1, 1],
    &[LONGEST, 1, 8_191],
    &[1, LONGEST, 1],
    &[3, 8_189, 8_192, 8_192, 8_193],
];

impl Linked {
    /// Up to 40 blocks of up to 3 instructions.
    pub fn small(seed: u64) -> Linked {
        let rng = &mut Rng::new(!seed);
        Linked {
            seed,
            blocks: rng.between(1, 40),
            lengths: Lengths::Between(1, rng.pick(&[1, 2, 3])),
            sets: rng.pick(&SETS),
            graph: rng.pick(&GRAPHS),
            start: rng.pick(&STARTS),
            end: rng.pick(&ENDS),
            strays: rng.pick(&[0, 10, 50]),
        }
    }

    /// Blocks whose lengths meet the limit of a part, just miss it or pass it.
    pub fn limit(seed: u64) -> Linked {
        let rng = &mut Rng::new(!seed);
        let listed = LIMITS[seed as usize % LIMITS.len()];
        let lengths = match rng.below(3) {
            0 => Lengths::Around(GROUP_LIMIT),
            _ => Lengths::Listed(listed),
        };
        Linked {
            blocks: listed.len() * rng.between(1, 3),
            lengths,
            start: 0x0800_0000,
            end: None,
            strays: rng.pick(&[0, 0, 20]),
            ..Linked::small(seed)
        }
    }

    /// As many blocks as a file may have, and, for odd seeds, as many instructions. Seeds go
    /// through the graphs.
    pub fn large(seed: u64) -> Linked {
        let graph = GRAPHS[seed as usize / 2 % GRAPHS.len()];
        let lengths = match seed % 2 {
            0 => Lengths::Between(1, 2),
            _ => Lengths::Mean(16),
        };
        Linked {
            lengths,
            strays: if seed < 16 { 0 } else { 5 },
            ..Linked::most(seed, graph)
        }
    }

    /// As many blocks as a file may have, linked by `graph` alone.
    pub fn most(seed: u64, graph: Graph) -> Linked {
        Linked {
            seed,
            blocks: MOST_BLOCKS,
            lengths: Lengths::Between(1, 2),
            sets: SETS[seed as usize % SETS.len()],
            graph,
            start: 0x0800_0000,
            end: None,
            strays: 0,
        }
    }

    fn spans(&self, rng: &mut Rng) -> Vec<Span> {
        let counts = layout::counts(rng, self.blocks, self.lengths);
        let mut spans: Vec<Span> = Vec::with_capacity(counts.len());
        let mut next = 0;
        for (i, &count) in counts.iter().enumerate() {
            let thumb = match self.sets {
                Sets::Arm => false,
                Sets::Thumb => true,
                Sets::Either => rng.percent(50),
                Sets::Both => i % 2 == 1,
            };
            let twin = self.sets == Sets::Both && thumb;
            let mut span = Span {
                address: if twin { spans[i - 1].address } else { next },
                thumb,
                count,
            };
            if !thumb {
                span.address = span.address.next_multiple_of(4);
            }
            next = next.max(span.end());
            spans.push(span);
        }
        let last = next.next_multiple_of(4);
        let start = self.end.map_or(self.start, |end| end.wrapping_sub(last));
        for span in &mut spans {
            span.address = span.address.wrapping_add(start);
        }
        spans
    }

    pub fn blocks(&self) -> Vec<Block> {
        let rng = &mut Rng::new(self.seed);
        let spans = self.spans(rng);
        (0..spans.len())
            .map(|i| Block {
                address: spans[i].address,
                thumb: spans[i].thumb,
                code: None,
                records: self.records(rng, &spans, i),
            })
            .collect()
    }

    fn records(&self, rng: &mut Rng, spans: &[Span], i: usize) -> Vec<Record> {
        let filler = Record::free(FreeKind::Mrs, [0; 12]);
        let mut records = vec![filler; spans[i].count];
        // What stands before the closing counts where it is half of a pair.
        let few = records.len().saturating_sub(3);
        for place in &mut records[few..] {
            *place = instructions::plain(rng, spans, i);
        }
        let last = if rng.percent(self.strays) {
            closing::any(rng, spans, i)
        } else {
            let to = self.target(rng, i, spans.len());
            let both = self.graph == Graph::First;
            closing::lead_to(rng, &spans[i], &spans[to], both)
        };
        for (place, record) in records.iter_mut().rev().zip(last.into_iter().rev()) {
            *place = record;
        }
        records
    }

    /// Where each address has two blocks, the graph is drawn for either set, and some ARM blocks
    /// lead over to the other.
    fn target(&self, rng: &mut Rng, i: usize, n: usize) -> usize {
        if self.sets != Sets::Both || n < 2 {
            return self.graph.target(rng, i, n);
        }
        let half = self.graph.target(rng, i / 2, n / 2);
        let thumb = if rng.percent(5) { 1 } else { i % 2 };
        2 * half + thumb
    }

    pub fn file(&self) -> File {
        file::build(&self.blocks())
    }
}
