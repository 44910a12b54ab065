//! The builder and the check against three files written out by hand.

use recomp_tools::check::{check, Accepted, Refused};
use recomp_tools::file::{build, Block};
use recomp_tools::record::Record;

fn accepted(blocks: u64, instructions: u64) -> Result<Accepted, Refused> {
    Ok(Accepted {
        blocks,
        instructions,
    })
}

fn lone(address: u32, record: Record) -> Block {
    Block {
        address,
        thumb: false,
        code: None,
        records: vec![record],
    }
}

#[test]
fn no_blocks() {
    #[rustfmt::skip]
    let bytes = [
        1, 0, 0, 0, 32, 0, 0, 0, 0, 0, 0, 0, 32, 0, 0, 0,
        0, 0, 0, 0, 32, 0, 0, 0, 0, 0, 0, 0, 32, 0, 0, 0,
    ];
    assert_eq!(build(&[]).bytes, bytes);
    assert_eq!(check(&bytes), accepted(0, 0));
}

/// The listing example of document 01.
#[test]
fn listing_example() {
    #[rustfmt::skip]
    let bytes = [
        5, 14, 0, 0, 0, 0, 0, 0, 0, 0, 0, 0, 8, 0, 0, 8,
        4, 14, 0, 0, 14, 0, 0, 0, 0, 0, 0, 0, 0, 0, 0, 0,
        4, 14, 0, 0, 14, 0, 0, 0, 0, 0, 0, 0, 0, 0, 0, 0,
        0, 0, 0, 8, 0, 0, 0, 0, 1, 0, 0, 0, 0, 0, 0, 0,
        4, 0, 0, 8, 0, 0, 0, 0, 1, 0, 0, 0, 0, 0, 0, 0,
        8, 0, 0, 8, 0, 0, 0, 0, 1, 0, 0, 0, 0, 0, 0, 0,
        1, 0, 0, 0, 80, 0, 0, 0, 3, 0, 0, 0, 128, 0, 0, 0,
        3, 0, 0, 0, 128, 0, 0, 0, 0, 0, 0, 0, 128, 0, 0, 0,
    ];
    let blocks = [
        lone(0x0800_0000, Record::branch(false, 0x0800_0008)),
        lone(0x0800_0004, Record::bx(14)),
        lone(0x0800_0008, Record::bx(14)),
    ];
    assert_eq!(build(&blocks).bytes, bytes);
    assert_eq!(check(&bytes), accepted(3, 3));
}

/// A Thumb BL pair in RAM with its code bytes; the second block's bytes are absent.
#[test]
fn pair_with_code() {
    #[rustfmt::skip]
    let bytes = [
        0x00, 0xf0, 0x03, 0xf8,
        6, 14, 3, 0, 0, 0, 0, 0, 0, 0, 0, 0, 0x04, 0x01, 0, 2,
        7, 14, 0xff, 0xff, 0, 0, 0, 0, 0, 0, 0, 0, 3, 0, 0, 0,
        13, 0, 0, 0, 1, 2, 3, 4, 5, 6, 7, 8, 9, 10, 11, 12,
        0x00, 0x01, 0, 2, 3, 0, 0, 0, 2, 0, 0, 0, 0, 0, 0, 0,
        0x04, 0x01, 0, 2, 0, 0, 0, 0, 1, 0, 0, 0, 0, 0, 0, 0,
        1, 0, 0, 0, 64, 0, 0, 0, 2, 0, 0, 0, 112, 0, 0, 0,
        3, 0, 0, 0, 116, 0, 0, 0, 4, 0, 0, 0, 116, 0, 0, 0,
    ];
    let pair = Block {
        address: 0x0200_0100,
        thumb: true,
        code: Some(vec![0x00, 0xf0, 0x03, 0xf8]),
        records: vec![
            Record::thumb_bl_high(0x0200_0104).with_cost(3),
            Record::thumb_bl_low(3).with_cost(0xffff),
        ],
    };
    let swi = Record::swi([1, 2, 3, 4, 5, 6, 7, 8, 9, 10, 11, 12]).with_cond(0);
    let blocks = [pair, lone(0x0200_0104, swi)];
    assert_eq!(build(&blocks).bytes, bytes);
    assert_eq!(check(&bytes), accepted(2, 3));
}
