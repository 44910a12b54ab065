//! The stored vectors: enough of each number, in the sizes that their reader has room for.

use recomp_tools::check::check;
use recomp_tools::reasons::{Kind, Reason, Sentence};
use recomp_tools::vectors::decimal::{decimals, encode_decimals, DecimalVector};
use recomp_tools::vectors::grouping::{encode_exits, encode_plans, exits, plans, PlanVector};
use recomp_tools::vectors::pages::{encode_pages, page, pages, PageVector};
use recomp_tools::vectors::reasons::{encode_reasons, reason, reasons, ReasonVector};
use recomp_tools::vectors::{all, encode};
use std::collections::HashSet;

#[test]
fn numbers_and_sizes() {
    // Each vector's answer is held against the check as it is made.
    let vectors = all();
    for number in 0..=7 {
        let count = vectors
            .iter()
            .filter(|v| v.expected.number == number)
            .count();
        assert!(count >= 50, "{count} vectors with {number}");
    }
    let short = vectors.iter().filter(|v| v.file.len() <= 400).count();
    assert!(vectors.len() >= 1_500 && short * 20 > vectors.len() * 19);
    assert!(encode(&vectors).len() < 700_000);
}

#[test]
fn exit_numbers_and_sizes() {
    let vectors = exits();
    for count in 0..=2 {
        let of = |n: u32| vectors.iter().filter(move |v| v.expected.number == n);
        let lists = of(0).filter(|v| v.expected.count == count).count();
        assert!(lists >= 50, "{lists} lists of {count}");
        assert!(of(9).count() >= 50);
    }
    assert!(encode_exits(&vectors).len() < 300_000);
}

#[test]
fn plan_numbers_and_sizes() {
    let vectors = plans();
    for (number, least) in [(0, 100), (8, 15), (10, 15)] {
        let count = vectors
            .iter()
            .filter(|v| v.expected.number == number)
            .count();
        assert!(count >= least, "{count} vectors with {number}");
    }
    // Buffers exactly as long as they must be, with a number too few, and with numbers to spare.
    let lent = |number: u32, [work, plan]: [i64; 2]| {
        let is = |v: &&PlanVector| v.expected.number == number && beyond(v) == [work, plan];
        vectors.iter().filter(is).count()
    };
    assert!(lent(0, [0, 0]) >= 100 && lent(0, [1, 3]) >= 15);
    assert!(lent(8, [-1, 0]) >= 15 && lent(8, [-1, -1]) >= 15);
    assert!(lent(10, [0, -1]) >= 15 && lent(10, [2, -1]) >= 15);
    // Some groups have several blocks, and some plans are not in file order.
    let several = |v: &&_| plan_of(v).windows(2).any(|w| w[0][0] == w[1][0]);
    let moved = |v: &&_| plan_of(v).windows(2).any(|w| w[0][1] > w[1][1]);
    assert!(vectors.iter().filter(several).count() >= 50);
    assert!(vectors.iter().filter(moved).count() >= 20);
    assert!(encode_plans(&vectors).len() < 150_000);
}

fn plan_of(v: &PlanVector) -> &[[u32; 2]] {
    &v.plan
}

/// How many numbers are lent beyond those that the file's blocks need.
fn beyond(v: &PlanVector) -> [i64; 2] {
    let blocks = check(&v.file).expect("an accepted file").blocks as i64;
    [
        v.work_len as i64 - 4 * blocks,
        v.plan_len as i64 - 2 * blocks,
    ]
}

/// Vectors of either call with an answer of this number, for files with so many blocks.
fn page_vectors(vectors: &[PageVector], number: u32, blocks: u64) -> Vec<&PageVector> {
    let of = |v: &&PageVector| {
        let checked = check(&v.file);
        v.expected.number == number && checked.is_ok_and(|counts| counts.blocks == blocks)
    };
    vectors.iter().filter(of).collect()
}

/// A text exactly full and a byte short, pages that there are not, and too few work numbers, for as
/// many blocks as fill a page, for one fewer and for one more.
#[test]
fn page_numbers_and_sizes() {
    for vectors in [page(), pages()] {
        for blocks in [1, 3, 59, 60, 61, 120, 121] {
            let lent = |number: u32, room: [i64; 2]| {
                let of = page_vectors(&vectors, number, blocks);
                let is = |v: &&&PageVector| {
                    let needed = 4 * blocks as i64;
                    let work = v.work_len as i64 - needed;
                    let text = v.text_len as i64 - v.expected.length as i64;
                    [work, text] == room
                };
                of.iter().filter(is).count()
            };
            let answered = lent(0, [0, 0]) + lent(0, [1, 0]);
            assert!(answered >= 1, "{blocks} blocks");
            let refused = |number| page_vectors(&vectors, number, blocks).len();
            assert!(refused(8) >= 4 && refused(9) >= 4 && refused(10) >= 2);
        }
        assert_eq!(page_vectors(&vectors, 9, 0).len(), 4);
        let sized = encode_pages(&vectors).len();
        assert!(sized < 500_000, "{sized}");
    }
}

/// Lines with no exit, one and two; groups of up to three digits and counts of up to three; keys
/// that do not rise; and pages with every number of lines at an edge, up to three in one text.
#[test]
fn lines_of_page_vectors() {
    let texts: Vec<String> = pages().into_iter().map(|v| v.text).collect();
    let lines = || texts.iter().flat_map(|text| text.lines());
    let blocks = || lines().filter(|line| !line.starts_with(' '));
    for width in [0, 8, 17] {
        let exits = |line: &&str| line[23..].trim_end().len() == width;
        assert!(blocks().filter(exits).count() >= 50, "{width}");
    }
    for digits in 1..=3 {
        let of = |line: &&str, field: std::ops::Range<usize>| line[field].trim().len() == digits;
        assert!(blocks().any(|line| of(&line, 9..15)), "{digits}");
        assert!(blocks().any(|line| of(&line, 16..22)), "{digits}");
    }
    let falls = |text: &&String| {
        let keys: Vec<&str> = text.lines().filter(|l| !l.starts_with(' ')).collect();
        keys.windows(2).any(|two| two[0] > two[1])
    };
    assert!(texts.iter().filter(falls).count() >= 10);
    let lengths: Vec<usize> = texts.iter().map(|text| text.len() / 65).collect();
    for lines in [2, 60, 61, 63, 122, 124] {
        assert!(lengths.contains(&lines), "{lines}");
    }
}

/// Vectors of either call for sentences with an answer of this number.
fn reason_vectors(vectors: &[ReasonVector], number: u32) -> Vec<&ReasonVector> {
    let of = |v: &&ReasonVector| v.expected.number == number;
    vectors.iter().filter(of).collect()
}

/// All refusals but 8; texts that are exactly full and a byte longer, with sentences and without;
/// numbers that no instruction has, with a text and with none.
#[test]
fn reason_numbers_and_sizes() {
    for vectors in [reason(), reasons()] {
        for number in [0, 1, 2, 3, 4, 5, 6, 7, 9, 10] {
            let count = reason_vectors(&vectors, number).len();
            assert!(count >= 2, "{count} vectors with {number}");
        }
        assert!(reason_vectors(&vectors, 8).is_empty());
        let answered = reason_vectors(&vectors, 0);
        for spare in [0, 1] {
            for empty in [true, false] {
                let of = |v: &&&ReasonVector| {
                    v.text_len == v.text.len() + spare && v.text.is_empty() == empty
                };
                let count = answered.iter().filter(of).count();
                assert!(count >= 15, "{count} with {spare} to spare, empty {empty}");
            }
        }
        let none = reason_vectors(&vectors, 9);
        let without = none.iter().filter(|v| v.text_len == 0).count();
        assert!(without >= 12 && none.len() - without >= 12);
        assert!((400..700).contains(&vectors.len()));
        let sized = encode_reasons(&vectors).len();
        assert!(sized < 200_000, "{sized}");
    }
}

/// Every reason, and every kind that has one, in either section.
#[test]
fn reasons_of_vectors() {
    for vectors in [reason(), reasons()] {
        let lines = vectors.iter().flat_map(|v| v.text.lines());
        let said: Vec<Sentence> = lines
            .map(|line| Sentence::read(line).expect(line))
            .collect();
        for (reason, words) in Reason::ALL {
            let count = said.iter().filter(|said| said.reason == reason).count();
            assert!(count >= 3, "{words}: {count}");
        }
        for kind in Kind::ALL {
            let count = said.iter().filter(|said| said.kind == kind).count();
            let never = matches!(kind, Kind::MulLong | Kind::Branch);
            assert_eq!(count == 0, never, "{kind:?}: {count}");
        }
    }
}

/// Lines that end early, at the first one or a later one, and a shorter one after them that would
/// have fitted.
#[test]
fn lines_of_reason_vectors() {
    let vectors = reasons();
    let count = |v: &ReasonVector| check(&v.file).expect("an accepted file").instructions;
    let early = |v: &&&ReasonVector| v.expected.next.is_some_and(|next| next < count(v));
    let answered = reason_vectors(&vectors, 0);
    assert!(answered.iter().filter(early).count() >= 100);
    let fits_later = |v: &&&ReasonVector| {
        let all = recomp_tools::reasons::sentences(&v.file);
        let next = v.expected.next.expect("the call says it") as usize;
        let room = v.text_len - v.text.len();
        all[next..].iter().flatten().any(|said| said.len() < room)
    };
    let later = answered.iter().filter(early).filter(fits_later).count();
    assert!(later >= 20, "{later}");
}

/// Powers of 10 and their neighbours, powers of 2, and the largest number.
fn edges() -> Vec<u64> {
    let tens = (0..20).map(|k| 10u64.pow(k));
    let tens = tens.flat_map(|n| [n - 1, n, n + 1]);
    let twos = (0..64).map(|k| 1 << k);
    tens.chain(twos).chain([u64::MAX]).collect()
}

/// Every edge with a text that it just fills, numbers of every length, and texts that are too
/// short; indices after which there is no larger one.
#[test]
fn decimal_numbers_and_sizes() {
    let vectors = decimals();
    let digits = |v: &DecimalVector| v.number.to_string().into_bytes();
    let full = |v: &DecimalVector| v.at == 0 && v.text == digits(v);
    for number in edges() {
        let is = |v: &DecimalVector| v.number == number && full(v);
        let count = vectors.iter().filter(|v| is(v)).count();
        assert_eq!(count, 1, "{number}");
    }
    for length in 1..=20 {
        let of = |v: &&DecimalVector| digits(v).len() == length;
        let count = vectors.iter().filter(of).count();
        assert!(count >= 10, "{count} vectors of {length} digits");
    }
    let short = |v: &&DecimalVector| v.text_len as u64 + 1 == v.after;
    assert!(vectors.iter().filter(short).count() >= 50);
    assert!(vectors.iter().filter(|v| v.text_len == 0).count() >= 50);
    let last = |v: &&DecimalVector| v.after == u64::MAX && v.at < u64::MAX;
    let beyond = |v: &&DecimalVector| v.after - v.at < digits(v).len() as u64;
    let saturated = vectors.iter().filter(last).filter(beyond).count();
    assert!(saturated >= 20, "{saturated}");
    let long = vectors.iter().filter(|v| v.text_len > 64).count();
    assert!(long <= 2 && vectors.iter().all(|v| v.text_len <= 600));
    let asked = vectors.iter().map(|v| (v.number, v.at, v.text_len));
    assert_eq!(asked.collect::<HashSet<_>>().len(), vectors.len());
    let encoded = encode_decimals(&vectors);
    assert!(encoded.len() < 100_000, "{}", encoded.len());
    assert_eq!(encoded[..4], (vectors.len() as u32).to_le_bytes());
}

/// Some texts by hand: cut, with bytes on either side, and past the end, where nothing is written.
#[test]
fn texts_of_decimal_vectors() {
    let vectors = decimals();
    let expect = |number, at, text: &[u8], after| {
        let is = |v: &&DecimalVector| (v.number, v.at, v.text_len) == (number, at, text.len());
        let found = vectors.iter().find(is).expect("a vector");
        assert_eq!((&found.text[..], found.after), (text, after));
    };
    expect(0, 0, b"0", 1);
    expect(100, 0, b"10", 3);
    expect(100, 1, b"", 4);
    expect(100, 1, b"\xff100\xfb\xfa\xf9", 4);
    expect(12345, 7, b"\xff\xfe\xfd\xfc\xfb\xfa\xf91", 12);
    let untouched = b"\xff\xfe\xfd\xfc\xfb\xfa\xf9\xf8\xf7\xf6";
    expect(98, 11, untouched, 13);
    expect(98, (1 << 32) + 5, untouched, (1 << 32) + 7);
    for at in [u64::MAX - 2, u64::MAX - 1, u64::MAX] {
        expect(98, at, untouched, u64::MAX);
    }
}
