//! The plan on pages: every byte of a page, which pages there are, and those that there are not.

mod common;

use common::{lone, lone_blocks, recomp, recomp_on, sample, Scratch};
use recomp_tools::file::{build, Block};
use recomp_tools::record::Record;

const NE: u8 = 1;

/// A page as it is printed, from its number and its lines without the blanks at their ends.
fn page(number: u64, lines: &[String]) -> String {
    let lines = lines.iter().map(|line| format!("{line:<64}\n"));
    [format!("{number:>64}\n")]
        .into_iter()
        .chain(lines)
        .collect()
}

/// The one page of a sample.
fn page_of(name: &str) -> String {
    let all = recomp(&["page", &sample(name)]).printed();
    assert_eq!(recomp(&["page", &sample(name), "1"]).printed(), all);
    all
}

#[test]
fn the_pages_of_samples() {
    // In the order of emission, which is not that of the file.
    let three_blocks = [
        "08000004      0      1",
        "08000000      1      1 08000008",
        "08000008      1      1",
    ];
    let ram_and_thumb = ["02000101      0      2 0200010b", "02000104      1      1"];
    let expected = page(1, &three_blocks.map(String::from));
    assert_eq!(page_of("three_blocks.blk"), expected);
    let expected = page(1, &ram_and_thumb.map(String::from));
    assert_eq!(page_of("ram_and_thumb.blk"), expected);
}

/// Block `n` of those that are groups of their own, have up to 1,000 instructions, and go back to
/// the first or on.
fn with_two_exits(n: u32) -> Block {
    let count = 1 + n * 999 / 59;
    let mut records = vec![Record::swap([0; 12]); count as usize - 1];
    records.push(Record::branch(false, 0x0300_0000).with_cond(NE));
    Block {
        records,
        ..lone(0x0300_0000 + 0x1000 * n, Record::bx(14))
    }
}

#[test]
fn every_byte_of_a_page_of_sixty_blocks_with_two_exits() {
    let blocks: Vec<_> = (0..60).map(with_two_exits).collect();
    let printed = recomp_on(&build(&blocks).bytes, &["page", "-"]).printed();
    let line = |(n, block): (usize, &Block)| {
        let (key, count) = (block.address, block.records.len());
        let after = key + 4 * count as u32;
        format!("{key:08x} {n:>6} {count:>6} 03000000 {after:08x}")
    };
    let lines: Vec<_> = blocks.iter().enumerate().map(line).collect();
    assert_eq!(printed, page(1, &lines));
    assert_eq!(lines[0], "03000000      0      1 03000000 03000004");
    assert_eq!(lines[59], "0303b000     59   1000 03000000 0303bfa0");
    assert_eq!(printed.len(), 3965);
    assert!(printed.lines().all(|line| line.len() == 64));
}

/// The largest group and the largest count, on the last page that a file can have.
#[test]
fn the_widest_numbers() {
    let first = Block {
        records: vec![Record::swap([0; 12]); 65_535],
        ..lone(0x0200_0000, Record::bx(14))
    };
    let rest = (1..65_536).map(|n| lone(0x0900_0000 + 4 * n, Record::bx(14)));
    let blocks: Vec<_> = [first].into_iter().chain(rest).collect();
    let scratch = Scratch::new();
    let path = scratch.file("most.blk", &build(&blocks).bytes);
    let printed = recomp(&["page", &path, "1"]).printed();
    let line = printed.lines().nth(1).expect("a block");
    assert_eq!(line.trim_end(), "02000000      0  65535 0203fffc");
    let lines: Vec<_> = (65_520..65_536)
        .map(|n| format!("{:08x}  {n}      1", 0x0900_0000 + 4 * n))
        .collect();
    let last = page(1093, &lines);
    assert_eq!(recomp(&["page", &path, "1093"]).printed(), last);
    let all = recomp(&["page", &path]).printed();
    assert_eq!(all.len(), 65 * (65_536 + 1093));
    assert!(all.ends_with(&last));
}

#[test]
fn all_pages_are_those_of_every_number_one_after_the_other() {
    let scratch = Scratch::new();
    for (blocks, pages) in [(1, 1), (59, 1), (60, 1), (61, 2), (120, 2), (121, 3)] {
        let path = scratch.file("pages.blk", &lone_blocks(blocks).bytes);
        let mut all = String::new();
        for number in 1..=pages {
            let before = 60 * (number - 1);
            let lines: Vec<_> = (before..blocks.min(before + 60))
                .map(|n| format!("{:08x} {n:>6}      1", 0x0800_0000 + 4 * n))
                .collect();
            let one = recomp(&["page", &path, &number.to_string()]).printed();
            assert_eq!(one, page(number.into(), &lines));
            all.push_str(&one);
        }
        assert_eq!(recomp(&["page", &path]).printed(), all);
    }
}

/// The line for a page that a file with so many blocks does not have.
fn refused(blocks: u32, number: &str) -> String {
    let line = recomp_on(&lone_blocks(blocks).bytes, &["page", "-", number]).failed(1);
    let start = format!("refused 9 at 0: standard input: there is no page {number}");
    line.strip_prefix(&start).expect("a refusal").into()
}

#[test]
fn pages_that_there_are_not() {
    for number in ["0", "3", "4294967297", "18446744073709551615"] {
        assert_eq!(refused(120, number), "; name one of pages 1 to 2");
    }
    for number in ["0", "2"] {
        assert_eq!(refused(60, number), "; name page 1, the only one");
    }
}

#[test]
fn a_file_without_blocks_has_no_page() {
    let path = sample("no_blocks.blk");
    assert_eq!(recomp(&["page", &path]).printed(), "");
    for number in ["0", "1"] {
        let none = ", nor any other, as there are no blocks; name another file";
        assert_eq!(refused(0, number), none);
    }
}
