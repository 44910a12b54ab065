//! The plan on pages against document 02's words: the columns of a line, the lines of a page, and
//! what the two calls answer and leave.

use recomp_tools::check::{check, Accepted, Refused};
use recomp_tools::listing::Row;
use recomp_tools::model;
use recomp_tools::pages::{outcome, texts, total, Asked, Outcome, PageNumbers};

/// Three blocks, so 12 work numbers.
const SAMPLE: &[u8] = include_bytes!("../../samples/three_blocks.blk");

fn row(key: u32, exits: &[u32]) -> Row {
    let exits = exits.to_vec();
    Row { key, exits }
}

/// Lines come in emission order: the first group is that of the block in the middle.
#[test]
fn sample() {
    let lines = [
        "                                                               1",
        "08000004      0      1                                          ",
        "08000000      1      1 08000008                                 ",
        "08000008      1      1                                          ",
    ];
    assert_eq!(model::pages(SAMPLE), [lines.join("\n") + "\n"]);
}

/// Fields of every width that they come in, by column from 1.
#[test]
fn columns() {
    let rows = [
        row(0x1, &[0xabc, 0xffff_ffff]),
        row(0xfeed_beee, &[]),
        row(0x0800_0000, &[0x0800_0001]),
    ];
    let plan = [[0, 1], [10, 2], [65_535, 0]];
    let pages = texts(&rows, &[65_535, 1, 8_192], &plan);
    let [page] = &pages[..] else {
        panic!("{} pages", pages.len());
    };
    let lines: Vec<&str> = page.lines().collect();
    assert!(lines.iter().all(|line| line.len() == 64));
    let fields = |line: &str| {
        let columns = [1..=8, 10..=15, 17..=22, 24..=31, 33..=40].map(|c| c.start() - 1..*c.end());
        let blanks = [9..=9, 16..=16, 23..=23, 32..=32, 41..=64];
        for blank in blanks.map(|c| c.start() - 1..*c.end()) {
            assert!(line[blank].bytes().all(|byte| byte == b' '), "{line}");
        }
        columns.map(|column| line[column].to_string())
    };
    let none = "        ";
    let second = ["feedbeee", "     0", "     1", none, none];
    assert_eq!(fields(lines[1]), second);
    let third = ["08000000", "    10", "  8192", "08000001", none];
    assert_eq!(fields(lines[2]), third);
    let first = ["00000001", " 65535", " 65535", "00000abc", "ffffffff"];
    assert_eq!(fields(lines[3]), first);
}

/// Pages of so many blocks, each in a group of its own, the last block of the file first.
fn pages_of(blocks: u32) -> Vec<String> {
    let rows: Vec<Row> = (0..blocks).map(|n| row(0x100 * n, &[])).collect();
    let counts: Vec<u32> = (0..blocks).map(|n| n + 1).collect();
    let plan: Vec<[u32; 2]> = (0..blocks).map(|n| [n, blocks - 1 - n]).collect();
    texts(&rows, &counts, &plan)
}

/// Sixty blocks to a page, each block once and in emission order; the last has only its own lines.
#[test]
fn lines_of_pages() {
    let lines = |blocks: u32| -> Vec<usize> {
        let pages = pages_of(blocks);
        let groups = pages.iter().flat_map(|page| page.lines().skip(1));
        let groups = groups.map(|line| line[9..15].trim().parse::<u32>().expect("a group"));
        assert!(groups.eq(0..blocks), "{blocks}");
        for (page, number) in pages.iter().zip(1..) {
            assert_eq!(page.lines().next(), Some(&format!("{number:64}")[..]));
            assert_eq!(page.len(), 65 * page.lines().count());
        }
        pages.iter().map(|page| page.lines().count() - 1).collect()
    };
    assert_eq!(lines(0), []);
    assert_eq!(lines(1), [1]);
    assert_eq!(lines(59), [59]);
    assert_eq!(lines(60), [60]);
    assert_eq!(lines(61), [60, 1]);
    assert_eq!(lines(120), [60, 60]);
    assert_eq!(lines(121), [60, 60, 1]);
    assert_eq!(pages_of(65_536).len(), 1_093);
}

fn answered(count: Option<u64>, length: u64) -> PageNumbers {
    PageNumbers {
        number: 0,
        at: 0,
        count,
        length,
    }
}

/// A refusal of the call for one page, then of the call for pages.
fn refused(number: u32, at: u64, cleared: usize) -> [Outcome<'static>; 2] {
    [None, Some(0)].map(|count| {
        let numbers = answered(count, 0);
        Outcome {
            numbers: PageNumbers {
                number,
                at,
                ..numbers
            },
            cleared,
            pages: &[],
        }
    })
}

/// 121 blocks, so 484 work numbers, and pages of 3,965, 3,965 and 130 bytes.
const CHECKED: Result<Accepted, Refused> = Ok(Accepted {
    blocks: 121,
    instructions: 121,
});

/// Both calls for a number.
fn both(pages: &[String], number: u64, lent: [usize; 2]) -> [Outcome<'_>; 2] {
    [Asked::Page(number), Asked::From(number)].map(|asked| outcome(CHECKED, pages, asked, lent))
}

#[test]
fn one_page() {
    let pages = pages_of(121);
    assert_eq!(total(&pages), 8_060);
    for (n, length) in [(1, 3_965), (2, 3_965), (3, 130)] {
        for text in [length, length + 1, 8_060, 9_000] {
            let expected = Outcome {
                numbers: answered(None, length as u64),
                cleared: 484,
                pages: &pages[n - 1..n],
            };
            let asked = Asked::Page(n as u64);
            assert_eq!(outcome(CHECKED, &pages, asked, [484, text]), expected);
            assert_eq!(outcome(CHECKED, &pages, asked, [500, text]), expected);
        }
    }
}

#[test]
fn pages_that_fit() {
    let pages = pages_of(121);
    let made = |range: std::ops::Range<usize>| Outcome {
        numbers: answered(
            Some(range.len() as u64),
            total(&pages[range.clone()]) as u64,
        ),
        cleared: 484,
        pages: &pages[range],
    };
    let of = |first, text| outcome(CHECKED, &pages, Asked::From(first), [484, text]);
    for text in [8_060, 8_061, 20_000] {
        assert_eq!(of(1, text), made(0..3));
    }
    for text in [7_930, 7_931, 8_059] {
        assert_eq!(of(1, text), made(0..2));
    }
    // The last page would fit where the second does not; none is skipped.
    for text in [3_965, 4_095, 7_929] {
        assert_eq!(of(1, text), made(0..1));
    }
    assert_eq!(of(2, 4_095), made(1..3));
    assert_eq!(of(2, 4_094), made(1..2));
    assert_eq!(of(3, 130), made(2..3));
}

#[test]
fn refusals() {
    let pages = pages_of(121);
    for (number, length) in [(1, 3_965), (2, 3_965), (3, 130)] {
        for text in [0, 1, length - 1] {
            assert_eq!(both(&pages, number, [484, text]), refused(10, 0, 484));
            assert_eq!(both(&pages, number, [483, text]), refused(8, 0, 0));
        }
    }
    for none in [0, 4, 5, 1 << 32, (1 << 32) + 1, u64::MAX] {
        for text in [0, 9_000] {
            assert_eq!(both(&pages, none, [485, text]), refused(9, 0, 484));
            assert_eq!(both(&pages, none, [483, text]), refused(8, 0, 0));
        }
    }
}

/// No blocks, no page: no number has one, however much is lent.
#[test]
fn no_blocks() {
    let checked = Ok(Accepted {
        blocks: 0,
        instructions: 0,
    });
    for number in [0, 1, 2, u64::MAX] {
        for lent in [[0, 0], [9, 9_000]] {
            let both = [Asked::Page(number), Asked::From(number)];
            let both = both.map(|asked| outcome(checked, &[], asked, lent));
            assert_eq!(both, refused(9, 0, 0));
        }
    }
}

/// A refusal of the check comes first, however little is lent and whatever page is named.
#[test]
fn refused_file() {
    let third = check(&SAMPLE[..100]);
    let seventh = Err(Refused { number: 7, at: 2 });
    for number in [0, 1, u64::MAX] {
        for lent in [[0, 0], [12, 9_000]] {
            let both = [Asked::Page(number), Asked::From(number)];
            let of = |checked| both.map(|asked| outcome(checked, &[], asked, lent));
            assert_eq!(of(third), refused(3, 0, 0));
            assert_eq!(of(seventh), refused(7, 2, 0));
        }
    }
}
