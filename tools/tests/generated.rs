//! The generator against the check: every generated file is accepted, and the kinds all occur.

use recomp_tools::check::{check, Accepted};
use recomp_tools::file::{Block, File};
use recomp_tools::generate::{blocks, file, Params, GROUP_LIMIT};
use recomp_tools::record::Record;

fn assert_accepted(params: &Params) -> File {
    let file = file(params);
    let expected = Accepted {
        blocks: file.blocks as u64,
        instructions: file.instructions as u64,
    };
    assert_eq!(check(&file.bytes), Ok(expected), "{params:?}");
    file
}

#[test]
fn small_files() {
    let mut kinds = [0; 15];
    let mut most_blocks = 0;
    let mut empty = 0;
    for seed in 0..4_000 {
        let file = assert_accepted(&Params::small(seed));
        for i in 0..file.instructions {
            kinds[usize::from(file.bytes[file.instruction_at(i)])] += 1;
        }
        most_blocks = most_blocks.max(file.blocks);
        empty += (file.blocks == 0) as usize;
    }
    assert!(kinds.iter().all(|&n| n > 200), "{kinds:?}");
    assert_eq!(most_blocks, 12);
    assert!(empty > 0);
}

const HIGH: u8 = 6;
const LOW: u8 = 7;

fn kind(record: &Record) -> u8 {
    record.0[0]
}

fn is_pair(pair: &[Record]) -> bool {
    kind(&pair[0]) == HIGH && kind(&pair[1]) == LOW
}

fn end(b: &Block) -> u64 {
    u64::from(b.address) + b.byte_len() as u64
}

/// What later comparisons of small files rest on; each has to be met often.
type Feature = (&'static str, fn(&[Block]) -> bool);

const FEATURES: [Feature; 11] = [
    ("both sets at one address", |f| {
        f.windows(2).any(|w| w[0].address == w[1].address)
    }),
    ("blocks that touch", |f| {
        f.windows(2).any(|w| end(&w[0]) == w[1].address.into())
    }),
    ("blocks that overlap", |f| {
        f.windows(2).any(|w| end(&w[0]) > w[1].address.into())
    }),
    ("an end at 2^32", |f| f.iter().any(|b| end(b) == 1 << 32)),
    ("a branch to its own block", |f| {
        let to_self = |b: &Block| Record::branch(false, b.address).0[12..] == b.records[0].0[12..];
        f.iter().any(|b| kind(&b.records[0]) == 5 && to_self(b))
    }),
    ("a pair in an ARM block", |f| {
        let arm = |b: &&Block| !b.thumb;
        f.iter()
            .filter(arm)
            .any(|b| b.records.windows(2).any(is_pair))
    }),
    ("a pair inside a block", |f| {
        let inside = |b: &Block| b.records.windows(2).rev().skip(1).any(is_pair);
        f.iter().any(inside)
    }),
    ("a high half at the end", |f| {
        f.iter().any(|b| b.records.last().map(kind) == Some(HIGH))
    }),
    ("a lone low half at the end", |f| {
        let lone = |b: &Block| b.records.len() == 1 && kind(&b.records[0]) == LOW;
        f.iter().any(lone)
    }),
    ("code bytes in RAM", |f| {
        f.iter().any(|b| b.address >> 24 == 2 && b.code.is_some())
    }),
    ("no code bytes in RAM", |f| {
        f.iter().any(|b| b.address >> 24 == 2 && b.code.is_none())
    }),
];

#[test]
fn features_of_small_files() {
    let files: Vec<_> = (0..4_000).map(|s| blocks(&Params::small(s))).collect();
    for (name, has) in FEATURES {
        let count = files.iter().filter(|f| has(f)).count();
        assert!(count >= 20, "{count} files with {name}");
    }
    let records = || files.iter().flatten().flat_map(|b| &b.records);
    for cond in 0..16 {
        assert!(records().filter(|r| r.0[1] == cond).count() > 500);
    }
}

#[test]
fn large_components() {
    for seed in 0..40 {
        assert_accepted(&Params::components(seed));
    }
}

#[test]
fn long_blocks() {
    let longest = |seed| {
        let file = assert_accepted(&Params::long(seed));
        let counts = (0..file.blocks).map(|i| file.word(file.block_at(i, 2)));
        counts.max().unwrap_or(0) as usize
    };
    assert!((0..40).filter(|&seed| longest(seed) > GROUP_LIMIT).count() > 10);
}

#[test]
fn chain_of_most_blocks() {
    for seed in 0..4 {
        assert_eq!(assert_accepted(&Params::chain(seed)).blocks, 65_536);
    }
}

#[test]
fn largest_file() {
    let file = assert_accepted(&Params::largest(1));
    assert_eq!((file.blocks, file.instructions), (65_536, 1_048_576));
    assert!(file.code_len > 0);
}

#[test]
fn a_seed_gives_one_file() {
    for seed in 0..100 {
        let params = Params::small(seed);
        assert_eq!(file(&params).bytes, file(&params).bytes);
    }
}
