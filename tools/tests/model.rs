//! The model of exits and plan against document 01's small files.

use recomp_tools::file::{build, Block};
use recomp_tools::model::{exits, plan};
use recomp_tools::record::Record;

fn block(address: u32, thumb: bool, records: &[Record]) -> Block {
    Block {
        address,
        thumb,
        code: None,
        records: records.to_vec(),
    }
}

fn exits_of(block: Block) -> Vec<u32> {
    exits(&build(&[block]).bytes).remove(0)
}

#[test]
fn small_exits() {
    let arm = |record| exits_of(block(0x0800_0010, false, &[record]));
    let branch = Record::branch(false, 0x0800_0040);
    assert_eq!(arm(branch.with_cond(0)), [0x0800_0040, 0x0800_0014]);
    assert_eq!(arm(branch), [0x0800_0040]);
    assert_eq!(arm(Record::bx(14).with_cond(0)), []);
    assert_eq!(arm(Record::swi([0; 12])), []);
    let halves = [Record::thumb_bl_high(0x0800_0104), Record::thumb_bl_low(3)];
    for thumb in [false, true] {
        let pair = block(0x0800_0100, thumb, &halves);
        assert_eq!(exits_of(pair), [0x0800_010b]);
    }
}

#[test]
fn wrapped_exits() {
    let last = block(0xffff_fffe, true, &[Record::mrs([0; 12])]);
    assert_eq!(exits_of(last), [1]);
    let halves = [Record::thumb_bl_high(0xffff_fffe), Record::thumb_bl_low(2)];
    assert_eq!(exits_of(block(0, false, &halves)), [3]);
}

/// Two blocks of one component, by their lengths.
fn groups(first: usize, second: usize) -> Vec<[u32; 2]> {
    let [fall_through, bx] = [Record::mrs([0; 12]), Record::bx(14)];
    let blocks = [
        block(0x0800_0000, false, &vec![fall_through; first]),
        block(0x0800_0000 + 4 * first as u32, false, &vec![bx; second]),
    ];
    plan(&build(&blocks).bytes)
}

#[test]
fn parts() {
    assert_eq!(groups(8_191, 1), [[0, 0], [0, 1]]);
    assert_eq!(groups(8_192, 1), [[0, 0], [1, 1]]);
    assert_eq!(groups(1, 8_192), [[0, 0], [1, 1]]);
    assert_eq!(groups(9_000, 1), [[0, 0], [1, 1]]);
}

/// The listing example: components come by root number, not by lowest key.
#[test]
fn listing_example() {
    let blocks = [
        block(0x0800_0000, false, &[Record::branch(false, 0x0800_0008)]),
        block(0x0800_0004, false, &[Record::bx(14)]),
        block(0x0800_0008, false, &[Record::bx(14)]),
    ];
    assert_eq!(plan(&build(&blocks).bytes), [[0, 1], [1, 0], [1, 2]]);
}

#[test]
fn pages() {
    for (page, shared) in [(0x08, true), (0x18, false), (0x02, false), (0x00, false)] {
        let address = page << 24;
        let blocks = [
            block(address, false, &[Record::branch(false, address + 8)]),
            block(address + 8, false, &[Record::bx(14)]),
        ];
        let plan = plan(&build(&blocks).bytes);
        assert_eq!(plan[0][0] == plan[1][0], shared, "{page:#x}");
    }
}
