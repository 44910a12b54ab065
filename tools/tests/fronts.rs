//! What the calls for the units from a given one on and for their lengths answer and leave, against
//! include/recomp.h.

use recomp_tools::check::{check, Refused};
use recomp_tools::fronts::{outcome, FrontNumbers, Lent, Outcome};
use recomp_tools::units::Unit;

/// Three blocks, so 12 work numbers.
const SAMPLE: &[u8] = include_bytes!("../../samples/three_blocks.blk");

/// Three units of 5, 3 and 8 bytes.
fn units() -> [Unit; 3] {
    let unit = |text: &str, done| Unit {
        text: text.into(),
        done,
    };
    [unit("first", 1), unit("two", 2), unit("the last", 3)]
}

/// A number of work numbers, of bytes of text and of places.
fn lent(work: usize, text: usize, lengths: usize) -> Lent {
    let text = Some(text);
    Lent {
        work,
        text,
        lengths,
    }
}

/// The same without text.
fn places(work: usize, lengths: usize) -> Lent {
    let text = None;
    Lent {
        work,
        text,
        lengths,
    }
}

fn answered(count: u64, length: Option<u64>, done: u64, last: u64) -> FrontNumbers {
    FrontNumbers {
        number: 0,
        at: 0,
        count,
        length,
        done,
        last,
    }
}

fn refused(number: u32, at: u64, cleared: usize, length: Option<u64>) -> Outcome<'static> {
    let numbers = FrontNumbers {
        number,
        at,
        ..answered(0, length, 0, 0)
    };
    Outcome {
        numbers,
        cleared,
        units: &[],
    }
}

#[test]
fn units_that_fit() {
    let units = units();
    let of = |first, lent| outcome(check(SAMPLE), &units, first, lent);
    let made = |numbers, range: std::ops::Range<usize>| Outcome {
        numbers,
        cleared: 12,
        units: &units[range],
    };
    // All of them, exactly full and with room to spare.
    for lent in [lent(12, 16, 3), lent(15, 99, 4)] {
        assert_eq!(of(0, lent), made(answered(3, Some(16), 3, 1), 0..3));
    }
    // A byte short, exactly two, two and a bit, and two places.
    for lent in [
        lent(12, 15, 3),
        lent(12, 8, 3),
        lent(12, 10, 9),
        lent(12, 16, 2),
    ] {
        assert_eq!(of(0, lent), made(answered(2, Some(8), 2, 0), 0..2));
    }
    for lent in [lent(12, 7, 3), lent(12, 5, 9), lent(12, 16, 1)] {
        assert_eq!(of(0, lent), made(answered(1, Some(5), 1, 0), 0..1));
    }
    // The next does not fit, though the one after it would have room beside the first.
    let long = [units[0].clone(), units[2].clone(), units[1].clone()];
    let short = outcome(check(SAMPLE), &long, 0, lent(12, 9, 3));
    assert_eq!(short.units, &long[..1]);
    assert_eq!(
        of(1, lent(12, 11, 2)),
        made(answered(2, Some(11), 3, 1), 1..3)
    );
    assert_eq!(
        of(2, lent(12, 8, 1)),
        made(answered(1, Some(8), 3, 1), 2..3)
    );
}

#[test]
fn lengths_that_have_a_place() {
    let units = units();
    let of = |first, lent| outcome(check(SAMPLE), &units, first, lent);
    let made = |numbers, range: std::ops::Range<usize>| Outcome {
        numbers,
        cleared: 12,
        units: &units[range],
    };
    for places in [places(12, 3), places(13, 4)] {
        assert_eq!(of(0, places), made(answered(3, None, 3, 1), 0..3));
    }
    assert_eq!(of(0, places(12, 2)), made(answered(2, None, 2, 0), 0..2));
    assert_eq!(of(1, places(12, 1)), made(answered(1, None, 2, 0), 1..2));
    assert_eq!(of(0, places(12, 0)), refused(10, 0, 12, None));
    assert_eq!(of(3, places(12, 0)), refused(9, 0, 12, None));
    assert_eq!(of(3, places(11, 3)), refused(8, 0, 0, None));
}

#[test]
fn buffers_and_numbers() {
    let units = units();
    let of = |first, lent| outcome(check(SAMPLE), &units, first, lent);
    for short in [lent(12, 4, 3), lent(12, 0, 3), lent(12, 16, 0)] {
        assert_eq!(of(0, short), refused(10, 0, 12, Some(0)));
    }
    assert_eq!(of(2, lent(12, 7, 3)), refused(10, 0, 12, Some(0)));
    for none in [3, 4, 1 << 32, (1 << 32) + 1, u64::MAX] {
        // The number named comes before text and places, and the work numbers before all.
        for lent in [lent(12, 99, 9), lent(12, 0, 9), lent(12, 99, 0)] {
            assert_eq!(of(none, lent), refused(9, 0, 12, Some(0)));
        }
        assert_eq!(of(none, lent(11, 0, 0)), refused(8, 0, 0, Some(0)));
    }
    assert_eq!(of(0, lent(11, 16, 3)), refused(8, 0, 0, Some(0)));
}

/// A refusal of the check comes first, however little is lent.
#[test]
fn refused_file() {
    let seventh = Err(Refused { number: 7, at: 2 });
    for lent in [lent(0, 0, 0), lent(12, 99, 9)] {
        assert_eq!(outcome(seventh, &[], 0, lent), refused(7, 2, 0, Some(0)));
    }
    let third = check(&SAMPLE[..100]);
    assert_eq!(outcome(third, &[], 5, places(0, 0)), refused(3, 0, 0, None));
}
