//! Vectors for the calls that answer a block's exits and a file's plan.

use super::{push_file, push_numbers};
use crate::damage::damaged;
use crate::file::{build, Block, File};
use crate::generate::closings;
use crate::generate::linked::Linked;
use crate::generate::{self, Params};
use crate::model::{self, exit_numbers, plan_numbers, ExitNumbers, PlanNumbers};
use crate::record::Record;
use crate::rng::Rng;

/// Generated files of either sort, and damaged copies.
const FILES: u64 = 80;
const COPIES: u64 = 40;

/// Generated files above this length are passed over, to keep the vectors short.
const SHORT: usize = 800;

/// One in so many of the closings is taken, so that conditions, fronts and ends take turns.
const CLOSINGS_STEP: usize = 29;

/// A file and a block's number with the answer.
pub struct ExitVector {
    pub block: u64,
    pub expected: ExitNumbers,
    pub file: Vec<u8>,
}

/// A file and how many numbers are lent, with how many work numbers become 0, the answer, and the
/// plan's front, empty on refusal.
pub struct PlanVector {
    pub work_len: usize,
    pub plan_len: usize,
    pub cleared: usize,
    pub expected: PlanNumbers,
    pub plan: Vec<[u32; 2]>,
    pub file: Vec<u8>,
}

pub(super) fn arm(address: u32, records: &[Record]) -> Block {
    Block {
        address,
        thumb: false,
        code: None,
        records: records.to_vec(),
    }
}

/// Document 01's exits, by construction.
fn named_exits() -> Vec<(Block, &'static [u32])> {
    let branch = Record::branch(false, 0x0800_0040);
    let at = |record| arm(0x0800_0010, &[record]);
    let halves = [Record::thumb_bl_high(0x0800_0104), Record::thumb_bl_low(3)];
    vec![
        (at(branch.with_cond(0)), &[0x0800_0040, 0x0800_0014]),
        (at(branch), &[0x0800_0040]),
        (at(Record::bx(14).with_cond(0)), &[]),
        (at(Record::swi([0; 12])), &[]),
        (arm(0x0800_0100, &halves), &[0x0800_010b]),
    ]
}

/// The listing example of document 01, and no blocks.
pub(super) fn named_files() -> Vec<File> {
    let listing = [
        arm(0x0800_0000, &[Record::branch(false, 0x0800_0008)]),
        arm(0x0800_0004, &[Record::bx(14)]),
        arm(0x0800_0008, &[Record::bx(14)]),
    ];
    vec![build(&listing), build(&[])]
}

/// Generated files that are short.
pub(super) fn short_files() -> impl Iterator<Item = File> {
    let scattered = (0..).map(|seed| generate::file(&Params::small(seed)));
    let linked = (0..).map(|seed| Linked::small(seed).file());
    let short = |file: &File| file.bytes.len() <= SHORT;
    let scattered = scattered.filter(short).take(FILES as usize);
    scattered.chain(linked.filter(short).take(FILES as usize))
}

/// Damaged copies of short files, most of them refused.
pub(super) fn damaged_files() -> impl Iterator<Item = Vec<u8>> {
    short_files()
        .take(COPIES as usize)
        .zip(0..)
        .map(|(file, seed)| {
            let rng = &mut Rng::new(seed);
            let faults = rng.between(1, 3);
            damaged(rng, &file, faults)
        })
}

/// Ends of a file that are too short for a trailer.
pub(super) fn cut_files() -> impl Iterator<Item = Vec<u8>> {
    let whole = named_files().remove(0).bytes;
    [0, 1, 16, 30, 31]
        .into_iter()
        .map(move |n| whole[whole.len() - n..].to_vec())
}

pub fn exits() -> Vec<ExitVector> {
    let mut out = vec![];
    let mut ask = |file: &[u8], block: u64| {
        out.push(ExitVector {
            block,
            expected: exit_numbers(file, block),
            file: file.to_vec(),
        });
    };
    for (block, expected) in named_exits() {
        let file = build(&[block]).bytes;
        assert_eq!(exit_numbers(&file, 0), expected.into());
        ask(&file, 0);
    }
    // Each block in a file of its own.
    for closings in closings::all().step_by(CLOSINGS_STEP) {
        for block in closings.blocks() {
            ask(&build(&[block]).bytes, 0);
        }
    }
    for (file, n) in named_files().into_iter().chain(short_files()).zip(0..) {
        let blocks = file.blocks as u64;
        // The first and the last block, or that there is no such block.
        for block in [[0, blocks.saturating_sub(1)], [blocks, u32::MAX.into()]][n % 2] {
            ask(&file.bytes, block);
        }
    }
    for copy in damaged_files().chain(cut_files()) {
        ask(&copy, 0);
    }
    out
}

/// How many work numbers become 0: four for each block, where the answer is a plan or refusal 10.
fn cleared(file: &[u8], number: u32) -> usize {
    match number {
        0 | 10 => 4 * model::plan(file).len(),
        _ => 0,
    }
}

pub fn plans() -> Vec<PlanVector> {
    let mut out = vec![];
    let mut ask = |file: &[u8], work_len: usize, plan_len: usize| {
        let expected = plan_numbers(file, work_len, plan_len);
        let plan = match expected.number {
            0 => model::plan(file),
            _ => vec![],
        };
        out.push(PlanVector {
            work_len,
            plan_len,
            cleared: cleared(file, expected.number),
            expected,
            plan,
            file: file.to_vec(),
        });
    };
    for (file, n) in named_files().into_iter().chain(short_files()).zip(0..) {
        let (work, plan) = (4 * file.blocks, 2 * file.blocks);
        ask(&file.bytes, work, plan);
        match n % 8 {
            _ if file.blocks == 0 => {}
            0 => ask(&file.bytes, work - 1, plan),
            1 => ask(&file.bytes, work, plan - 1),
            2 => ask(&file.bytes, work - 1, plan - 1),
            3 => ask(&file.bytes, work + 1, plan + 3),
            4 => ask(&file.bytes, work + 2, plan - 1),
            5 => ask(&file.bytes, work - 1, plan + 1),
            6 => ask(&file.bytes, 0, plan),
            _ => ask(&file.bytes, work + 3, 0),
        }
    }
    for copy in damaged_files().chain(cut_files()) {
        ask(&copy, 508, 254);
    }
    out
}

/// A count, then for each vector the block's number, the five numbers of the answer, the length of
/// the file and its bytes.
pub fn encode_exits(vectors: &[ExitVector]) -> Vec<u8> {
    let mut out = vec![];
    push_numbers(&mut out, &[vectors.len() as u64]);
    for v in vectors {
        let e = &v.expected;
        let answer = [e.number.into(), e.at, e.count, e.first, e.second];
        push_numbers(&mut out, &[v.block]);
        push_numbers(&mut out, &answer);
        push_file(&mut out, &v.file);
    }
    out
}

/// A count, then for each vector how many numbers are lent as work and for the plan and how many
/// become 0, the three numbers of the answer, the length of the file, its bytes, and the plan: two
/// numbers for each block that the answer counts.
pub fn encode_plans(vectors: &[PlanVector]) -> Vec<u8> {
    let mut out = vec![];
    push_numbers(&mut out, &[vectors.len() as u64]);
    for v in vectors {
        let e = &v.expected;
        let lent = [v.work_len, v.plan_len, v.cleared];
        push_numbers(&mut out, &lent.map(|n| n as u64));
        push_numbers(&mut out, &[e.number.into(), e.at, e.blocks]);
        push_file(&mut out, &v.file);
        for pair in &v.plan {
            push_numbers(&mut out, &pair.map(u64::from));
        }
    }
    out
}
