//! Exits, plan, listing and pages of an accepted block file, written from document 01 ('Exits and
//! plan'); the texts have modules of their own.

use crate::check::{check, words};
use crate::file::{self, RECORD, TRAILER};
use crate::listing::{self, Row};
use crate::pages;
use std::collections::HashMap;

/// Edges join blocks of this address page only.
const JOINED_PAGE: u32 = 8;

/// A part closes before a block that would push it over this number of instructions.
const PART_LIMIT: u32 = 8_192;

const AL: u8 = 14;
const PC: u8 = 15;

/// A block of a file, with as much as its exits and its place in the plan depend on.
#[derive(Clone, Copy, Debug)]
pub struct Block {
    pub address: u32,
    pub thumb: bool,
    pub count: u32,
    /// The last instruction record, and the one before it in the block.
    last: [u8; RECORD],
    before: Option<[u8; RECORD]>,
}

impl Block {
    pub fn key(&self) -> u32 {
        self.address + self.thumb as u32
    }

    fn after(&self) -> u32 {
        let size = if self.thumb { 2 } else { 4 };
        self.address.wrapping_add(self.count * size)
    }

    /// The exit list: the target before the fall-through.
    pub fn exits(&self) -> Vec<u32> {
        let own = |address: u32| address | self.thumb as u32;
        if let Some(target) = self.before.and_then(|high| pair(&high, &self.last)) {
            return vec![target | 1];
        }
        let fall_through = own(self.after());
        match closing(&self.last) {
            Closing::Branch(target, true) => vec![own(target)],
            Closing::Branch(target, false) => vec![own(target), fall_through],
            Closing::Leaves => vec![],
            Closing::GoesOn => vec![fall_through],
        }
    }
}

/// What the last record does, pairs apart.
enum Closing {
    /// The target, and whether the branch is always taken.
    Branch(u32, bool),
    Leaves,
    GoesOn,
}

fn closing(record: &[u8; RECORD]) -> Closing {
    let [.., high]: [u32; 4] = words(record);
    let (load, rd) = (record[4] & 1 != 0, record[6]);
    let leaves = match record[0] {
        5 => return Closing::Branch(high, record[1] == AL),
        4 | 7 | 13 | 14 => true,
        0 => rd == PC,
        8 => load && rd == PC,
        9 => load && high >> PC & 1 != 0,
        _ => false,
    };
    if leaves {
        Closing::Leaves
    } else {
        Closing::GoesOn
    }
}

/// The target of two halves of a Thumb BL that stand one after the other.
fn pair(high: &[u8; RECORD], low: &[u8; RECORD]) -> Option<u32> {
    let [.., lr_partial]: [u32; 4] = words(high);
    let [.., off]: [u32; 4] = words(low);
    (high[0] == 6 && low[0] == 7).then(|| lr_partial.wrapping_add(2 * off))
}

/// The block records of an accepted file, in its order, each with its instruction records.
pub fn records(file: &[u8]) -> Vec<(&[u8; RECORD], &[[u8; RECORD]])> {
    let (front, trailer) = file.split_last_chunk::<TRAILER>().expect("a trailer");
    let trailer: [u32; 8] = words(trailer);
    let code_len = trailer[file::trailer::CODE] as usize;
    let (records, _) = front[code_len..].as_chunks::<RECORD>();
    let (mut instructions, blocks) =
        records.split_at(trailer[file::trailer::INSTRUCTIONS] as usize);
    let mut out = Vec::with_capacity(blocks.len());
    for block in blocks {
        let [_, _, count, _] = words(block);
        let (own, rest) = instructions.split_at(count as usize);
        instructions = rest;
        out.push((block, own));
    }
    out
}

/// The blocks of an accepted file, in its order.
pub fn blocks(file: &[u8]) -> Vec<Block> {
    let block = |(record, own): (&[u8; RECORD], &[[u8; RECORD]])| {
        let [address, flags, count, _] = words(record);
        Block {
            address,
            thumb: flags & 1 != 0,
            count,
            last: own[own.len() - 1],
            before: own.len().checked_sub(2).map(|n| own[n]),
        }
    };
    records(file).into_iter().map(block).collect()
}

/// The exit list of every block.
pub fn exits(file: &[u8]) -> Vec<Vec<u32>> {
    blocks(file).iter().map(Block::exits).collect()
}

/// Group and block index, in emission order.
pub fn plan(file: &[u8]) -> Vec<[u32; 2]> {
    let blocks = blocks(file);
    let mut out = Vec::with_capacity(blocks.len());
    let mut group = 0;
    for members in components(&blocks) {
        let mut part = 0;
        for (n, &i) in members.iter().enumerate() {
            if n > 0 && part + blocks[i].count > PART_LIMIT {
                group += 1;
                part = 0;
            }
            part += blocks[i].count;
            out.push([group, i as u32]);
        }
        group += 1;
    }
    out
}

/// Key and exits of every block.
fn rows(blocks: &[Block]) -> Vec<Row> {
    let row = |block: &Block| Row {
        key: block.key(),
        exits: block.exits(),
    };
    blocks.iter().map(row).collect()
}

/// The text of the listing.
pub fn listing(file: &[u8]) -> String {
    listing::text(&rows(&blocks(file)), &plan(file))
}

/// How many instructions each block has.
pub fn counts(file: &[u8]) -> Vec<u32> {
    blocks(file).iter().map(|block| block.count).collect()
}

/// The pages of the plan.
pub fn pages(file: &[u8]) -> Vec<String> {
    pages::texts(&rows(&blocks(file)), &counts(file), &plan(file))
}

/// The answer for a block's exits as the C interface gives it: numbers it does not have are 0.
#[derive(Clone, Copy, Debug, Default, PartialEq, Eq)]
pub struct ExitNumbers {
    /// The refusal's number, 0 for an exit list.
    pub number: u32,
    pub at: u64,
    pub count: u64,
    pub first: u64,
    pub second: u64,
}

impl From<&[u32]> for ExitNumbers {
    fn from(exits: &[u32]) -> ExitNumbers {
        let key = |n: usize| exits.get(n).map_or(0, |&key| key.into());
        ExitNumbers {
            count: exits.len() as u64,
            first: key(0),
            second: key(1),
            ..ExitNumbers::default()
        }
    }
}

/// The answer for block `block` of any file.
pub fn exit_numbers(file: &[u8], block: u64) -> ExitNumbers {
    let refused = |number, at| ExitNumbers {
        number,
        at,
        ..ExitNumbers::default()
    };
    match check(file) {
        Err(refusal) => refused(refusal.number, refusal.at),
        Ok(counts) if block >= counts.blocks => refused(9, 0),
        Ok(_) => blocks(file)[block as usize].exits()[..].into(),
    }
}

/// The answer for a plan as the C interface gives it, the plan itself apart.
#[derive(Clone, Copy, Debug, Default, PartialEq, Eq)]
pub struct PlanNumbers {
    /// The refusal's number, 0 for a plan.
    pub number: u32,
    pub at: u64,
    pub blocks: u64,
}

/// The answer for any file with so many numbers lent as work and for the plan.
pub fn plan_numbers(file: &[u8], work_len: usize, plan_len: usize) -> PlanNumbers {
    let refused = |number, at| PlanNumbers {
        number,
        at,
        ..PlanNumbers::default()
    };
    match check(file) {
        Err(refusal) => refused(refusal.number, refusal.at),
        Ok(counts) if (work_len as u64) < 4 * counts.blocks => refused(8, 0),
        Ok(counts) if (plan_len as u64) < 2 * counts.blocks => refused(10, 0),
        Ok(counts) => PlanNumbers {
            blocks: counts.blocks,
            ..PlanNumbers::default()
        },
    }
}

/// The members of each component by key, the components by root number.
///
/// No parents are kept: a component is a list of its members together with its root's number, and
/// joining pours the shorter list into the longer.
fn components(blocks: &[Block]) -> Vec<Vec<usize>> {
    let by_key: HashMap<u32, usize> = (0..).zip(blocks).map(|(i, b)| (b.key(), i)).collect();
    let mut list_of: Vec<usize> = (0..blocks.len()).collect();
    let mut lists: Vec<Vec<usize>> = list_of.iter().map(|&i| vec![i]).collect();
    let mut roots = list_of.clone();
    let joined = |b: &Block| b.address >> 24 == JOINED_PAGE;
    for (i, source) in blocks.iter().enumerate().filter(|(_, b)| joined(b)) {
        for key in source.exits() {
            let Some(&j) = by_key.get(&key).filter(|&&j| joined(&blocks[j])) else {
                continue;
            };
            let (from, to) = (list_of[i], list_of[j]);
            if from == to {
                continue;
            }
            // The source's root hangs under the target's, which stays a root.
            let root = roots[to];
            let (kept, poured) = if lists[from].len() > lists[to].len() {
                (from, to)
            } else {
                (to, from)
            };
            for member in std::mem::take(&mut lists[poured]) {
                list_of[member] = kept;
                lists[kept].push(member);
            }
            roots[kept] = root;
        }
    }
    let mut by_root: Vec<usize> = (0..lists.len()).filter(|&n| !lists[n].is_empty()).collect();
    by_root.sort_by_key(|&n| roots[n]);
    by_root
        .into_iter()
        .map(|n| {
            let mut members = std::mem::take(&mut lists[n]);
            members.sort_by_key(|&i| blocks[i].key());
            members
        })
        .collect()
}
