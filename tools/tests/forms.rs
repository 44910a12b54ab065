//! The files with every kind and form: all are accepted and short, and what they are for occurs.

use recomp_tools::check::check;
use recomp_tools::file::Block;
use recomp_tools::generate::forms::{all, parts, Forms};
use recomp_tools::record::{block_mem, Record, StoredBase};
use std::collections::HashSet;

/// As long as a stored vector's file may be.
const LONGEST: usize = 4_096;

#[test]
fn accepted() {
    for forms in all(20) {
        let file = forms.file();
        assert!(check(&file.bytes).is_ok(), "{forms:?}");
        assert!(file.bytes.len() <= LONGEST, "{}", file.bytes.len());
    }
}

/// The blocks of one turn with one instruction set.
fn blocks(thumb: bool, conditional: bool, turn: usize) -> Vec<Block> {
    let part = |part| Forms {
        part,
        thumb,
        conditional,
        turn,
    };
    (0..parts()).flat_map(|n| part(n).blocks()).collect()
}

#[test]
fn kinds_and_forms() {
    for (thumb, conditional) in [(false, false), (true, false), (false, true), (true, true)] {
        let blocks = blocks(thumb, conditional, 0);
        let records: Vec<[u8; 16]> = blocks
            .iter()
            .flat_map(|b| &b.records)
            .map(|r| r.0)
            .collect();
        let count = |of: &dyn Fn(&[u8; 16]) -> Vec<u8>| {
            let different: HashSet<_> = records.iter().map(of).collect();
            different.len()
        };
        let kind = |r: &[u8; 16], kind| r[0] == kind;
        assert_eq!(count(&|r| vec![r[0]]), 15);
        // Operation, s, form, shift kind, and whether the amount or the rotation is 0.
        let alu = |r: &[u8; 16]| match r[8] {
            _ if !kind(r, 0) => vec![],
            0 => vec![r[4], r[5], 0, (r[9] == 0) as u8],
            1 => vec![r[4], r[5], 1, r[10], (r[11] == 0) as u8],
            _ => vec![r[4], r[5], 2],
        };
        assert_eq!(count(&alu), 1 + 16 * 2 * (2 + 8 + 1));
        let mem = |r: &[u8; 16]| match r[8] {
            _ if !kind(r, 8) => vec![],
            form => vec![r[4], r[5], (form == 0) as u8],
        };
        assert!(count(&mem) > 1 + 32 * 3);
        let block_mem = |r: &[u8; 16]| match r[0] {
            9 => vec![r[4]],
            _ => vec![],
        };
        assert_eq!(count(&block_mem), 1 + 32);
        let conditions = count(&|r| vec![r[1]]);
        assert!(conditions == 16 || !conditional, "{conditions}");
    }
}

/// Stores of a listed base, lowest or not, written back or not, up and down, from it and past it,
/// always and not, in blocks whose text they enter.
#[test]
fn stored_bases() {
    for thumb in [false, true] {
        let turns = [(false, 0), (true, 0), (false, 1), (true, 1)];
        let blocks = turns.map(|(conditional, turn)| blocks(thumb, conditional, turn));
        let printed = |b: &&Block| matches!(b.address >> 24, 0 | 8) || b.code.is_some();
        let records = blocks.iter().flatten().filter(printed);
        let records = records.flat_map(|b| &b.records);
        let different: HashSet<_> = records.filter_map(|r| r.stored_base()).collect();
        assert_eq!(different.len(), StoredBase::COUNT, "{different:?}");
    }
}

/// What is told of a record: up, past the base and so on are not exchanged.
#[test]
fn a_stored_base() {
    let store = Record::block_mem(block_mem::UP, 1, 0b11);
    let told = StoredBase {
        lowest: false,
        writeback: false,
        up: true,
        pre: false,
        conditional: false,
    };
    assert_eq!(store.stored_base(), Some(told));
    let down = Record::block_mem(block_mem::PRE | block_mem::WRITEBACK, 1, 0b110).with_cond(0);
    let other = StoredBase {
        lowest: true,
        writeback: true,
        up: false,
        pre: true,
        conditional: true,
    };
    assert_eq!(down.stored_base(), Some(other));
    assert_eq!(told.number() + other.number(), StoredBase::COUNT - 1);
    let load = Record::block_mem(block_mem::LOAD, 1, 0b11);
    let others = [
        load,
        Record::block_mem(0, 2, 0b11),
        Record::block_mem(block_mem::S_BIT, 1, 0b11),
    ];
    assert!(others.iter().all(|record| record.stored_base().is_none()));
}

#[test]
fn regions_and_code() {
    for thumb in [false, true] {
        let blocks = blocks(thumb, false, 0);
        for page in [0, 2, 3, 8, 9] {
            for present in [false, true] {
                let of = |b: &&Block| b.address >> 24 == page && b.code.is_some() == present;
                assert!(blocks.iter().filter(of).count() >= 2, "{page} {present}");
            }
        }
    }
}
