//! How stored vectors of the calls for units, pages and sentences, and of the printer, are encoded,
//! number by number. The original, which makes the texts of those for units, is not at hand here.

use recomp_tools::fronts::{FrontNumbers, Lent};
use recomp_tools::pages::{Asked, PageNumbers};
use recomp_tools::reasons::{self, ReasonNumbers};
use recomp_tools::units::{MeasureNumbers, Told, Unit, WriteNumbers};
use recomp_tools::vectors::decimal::{encode_decimals, DecimalVector};
use recomp_tools::vectors::fronts::{encode_fronts, FrontVector};
use recomp_tools::vectors::measure::{encode_measures, MeasureVector};
use recomp_tools::vectors::pages::{encode_pages, PageVector};
use recomp_tools::vectors::reasons::{encode_reasons, ReasonVector};
use recomp_tools::vectors::write::{encode_writes, WriteVector};

/// Numbers of 32 bits, as a vector has them.
fn words(numbers: &[u32]) -> Vec<u8> {
    numbers.iter().flat_map(|n| n.to_le_bytes()).collect()
}

#[test]
fn encoded_measures() {
    let told = Told {
        unit: (3 << 32) + 2,
        length: 8,
        done: 9,
        last: 1,
    };
    let vector = MeasureVector {
        max_bytes: u64::MAX - 1,
        unit: (5 << 32) + 4,
        work_len: 10,
        cleared: 11,
        expected: MeasureNumbers {
            number: 6,
            at: 7,
            told,
        },
        file: vec![0xff, 0xfe],
    };
    let asked = words(&[1, 0xffff_fffe, 0xffff_ffff, 4, 5, 10, 11]);
    let answer = words(&[6, 7, 2, 3, 8, 9, 1]);
    let file = [words(&[2]), vec![0xff, 0xfe]].concat();
    assert_eq!(encode_measures(&[vector]), [asked, answer, file].concat());
}

#[test]
fn encoded_writes() {
    let told = Told {
        unit: (3 << 32) + 2,
        length: (5 << 32) + 4,
        done: (7 << 32) + 6,
        last: (9 << 32) + 8,
    };
    let vector = WriteVector {
        max_bytes: u64::MAX - 1,
        told,
        work_len: 10,
        text_len: 11,
        cleared: 12,
        expected: WriteNumbers { number: 13, at: 14 },
        text: b"abc".to_vec(),
        file: vec![0xff, 0xfe],
    };
    let asked = words(&[1, 0xffff_fffe, 0xffff_ffff, 2, 3, 4, 5, 6, 7, 8, 9]);
    let lent_and_answer = words(&[10, 11, 12, 13, 14, 3]);
    let file_and_text = [words(&[2]), b"\xff\xfeabc".to_vec()].concat();
    let expected = [asked, lent_and_answer, file_and_text].concat();
    assert_eq!(encode_writes(&[vector]), expected);
}

/// Two units, as a vector of the call for units or of the one for lengths.
fn front(text: Option<usize>, length: Option<u64>) -> FrontVector {
    let unit = |text: &str, done| Unit {
        text: text.into(),
        done,
    };
    FrontVector {
        max_bytes: u64::MAX - 1,
        first: (3 << 32) + 2,
        lent: Lent {
            work: 4,
            text,
            lengths: 6,
        },
        cleared: 7,
        expected: FrontNumbers {
            number: 8,
            at: 9,
            count: 2,
            length,
            done: 10,
            last: 1,
        },
        units: vec![unit("abc", 9), unit("de", 10)],
        file: vec![0xff],
    }
}

#[test]
fn encoded_fronts() {
    let asked = [1, 0xffff_fffe, 0xffff_ffff, 2, 3, 4];
    let units = [
        words(&asked),
        words(&[5, 6, 7, 8, 9, 2, 5, 10, 1, 1]),
        b"\xffabcde".to_vec(),
        words(&[3, 2]),
    ];
    assert_eq!(encode_fronts(&[front(Some(5), Some(5))]), units.concat());
    let lengths = [
        words(&asked),
        words(&[6, 7, 8, 9, 2, 10, 1, 1]),
        vec![0xff],
        words(&[3, 2]),
    ];
    assert_eq!(encode_fronts(&[front(None, None)]), lengths.concat());
}

#[test]
fn encoded_pages() {
    let vector = |asked, count| PageVector {
        asked,
        work_len: 4,
        text_len: 5,
        cleared: 6,
        expected: PageNumbers {
            number: 7,
            at: 8,
            count,
            length: 3,
        },
        text: "abc".to_string(),
        file: vec![0xff, 0xfe],
    };
    let number = (3 << 32) + 2;
    let both = [
        vector(Asked::Page(number), None),
        vector(Asked::From(number), Some(9)),
    ];
    let mut expected = words(&[2]);
    for count in [0, 9] {
        expected.extend(words(&[2, 3, 4, 5, 6, 7, 8, count, 3, 2]));
        expected.extend_from_slice(&[0xff, 0xfe, b'a', b'b', b'c']);
    }
    assert_eq!(encode_pages(&both), expected);
}

#[test]
fn encoded_reasons() {
    let vector = |asked, next| ReasonVector {
        asked,
        text_len: 4,
        expected: ReasonNumbers {
            number: 5,
            at: 6,
            next,
            length: 3,
        },
        text: "abc".to_string(),
        file: vec![0xff, 0xfe],
    };
    let number = (3 << 32) + 2;
    let both = [
        vector(reasons::Asked::One(number), None),
        vector(reasons::Asked::From(number), Some(7)),
    ];
    let mut expected = words(&[2]);
    for next in [0, 7] {
        expected.extend(words(&[2, 3, 4, 5, 6, next, 3, 2]));
        expected.extend_from_slice(&[0xff, 0xfe, b'a', b'b', b'c']);
    }
    assert_eq!(encode_reasons(&both), expected);
}

#[test]
fn encoded_decimals() {
    let vector = |text: &[u8]| DecimalVector {
        number: (3 << 32) + 2,
        at: (5 << 32) + 4,
        text_len: text.len(),
        after: u64::MAX - 1,
        text: text.to_vec(),
    };
    let both = [vector(b""), vector(b"\xff1\xfd")];
    let after = [0xffff_fffe, 0xffff_ffff];
    let expected = [
        words(&[2]),
        words(&[2, 3, 4, 5, 0]),
        words(&after),
        words(&[2, 3, 4, 5, 3]),
        words(&after),
        b"\xff1\xfd".to_vec(),
    ];
    assert_eq!(encode_decimals(&both), expected.concat());
}
