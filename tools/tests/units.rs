//! What the calls that measure a unit and write it answer and leave, against documents 01 and 02,
//! and the answers that mislead about a unit.

use recomp_tools::check::{check, Refused};
use recomp_tools::misled::{far, near};
use recomp_tools::units::{
    measured, reached, told, written, MeasureNumbers, Measured, Told, Unit, WriteNumbers, Written,
};

/// Three blocks, so 12 work numbers.
const SAMPLE: &[u8] = include_bytes!("../../samples/three_blocks.blk");

/// Two units, as short as a test needs.
fn units() -> [Unit; 2] {
    let unit = |text: &str, done| Unit {
        text: text.into(),
        done,
    };
    [unit("first", 2), unit("and the last", 3)]
}

/// What is told of them.
const TOLD: [Told; 2] = [
    Told {
        unit: 0,
        length: 5,
        done: 2,
        last: 0,
    },
    Told {
        unit: 1,
        length: 12,
        done: 3,
        last: 1,
    },
];

/// Numbers that there is no unit for.
const NONE: [u64; 5] = [2, 3, 1 << 32, (1 << 32) + 1, u64::MAX];

/// Work numbers and bytes of text that are enough for either unit, and too few.
const ENOUGH: [usize; 2] = [12, 90];
const SHORT_WORK: [usize; 2] = [11, 90];
const SHORT_TEXT: [usize; 2] = [12, 4];
const NO_TEXT: [usize; 2] = [12, 0];

fn measuring(number: u32, at: u64, told: Told, cleared: usize) -> Measured {
    Measured {
        numbers: MeasureNumbers { number, at, told },
        cleared,
    }
}

fn writing(number: u32, at: u64, cleared: usize, front: &[u8]) -> Written<'_> {
    Written {
        numbers: WriteNumbers { number, at },
        cleared,
        front,
    }
}

/// The number that writing by these values answers, and how many work numbers become 0 then; a
/// refusal has no place, and leaves the text.
fn refused(told: Told, lent: [usize; 2]) -> (u32, usize) {
    let units = units();
    let written = written(check(SAMPLE), &units, told, lent);
    let (number, cleared) = (written.numbers.number, written.cleared);
    assert_eq!(written, writing(number, 0, cleared, &[]));
    (number, cleared)
}

#[test]
fn what_is_told() {
    let units = units();
    assert_eq!([0, 1].map(|k| told(&units, k)), TOLD.map(Some));
    for none in NONE {
        assert_eq!(told(&units, none), None);
    }
    for (k, told) in TOLD.into_iter().enumerate() {
        for work in [12, 15] {
            let of = measured(check(SAMPLE), &units, k as u64, work);
            assert_eq!(of, measuring(0, 0, told, 12));
        }
    }
}

/// The work numbers come before the number named; what is told is then 0.
#[test]
fn refusals_of_measuring() {
    let units = units();
    let of = |unit, work| measured(check(SAMPLE), &units, unit, work);
    let none = Told::default();
    for unit in NONE {
        assert_eq!(of(unit, 12), measuring(9, 0, none, 12));
        assert_eq!(of(unit, 11), measuring(8, 0, none, 0));
    }
    for unit in [0, 1] {
        assert_eq!(of(unit, 11), measuring(8, 0, none, 0));
        assert_eq!(of(unit, 0), measuring(8, 0, none, 0));
    }
}

#[test]
fn units_written() {
    let units = units();
    let of = |told, lent| written(check(SAMPLE), &units, told, lent);
    for lent in [[12, 5], [15, 5], ENOUGH] {
        assert_eq!(of(TOLD[0], lent), writing(0, 0, 12, b"first"));
    }
    for lent in [[12, 12], [13, 13]] {
        assert_eq!(of(TOLD[1], lent), writing(0, 0, 12, b"and the last"));
    }
}

/// A text that is a byte short and an empty one, where every value is right.
#[test]
fn short_texts() {
    for lent in [SHORT_TEXT, NO_TEXT, [20, 4]] {
        assert_eq!(refused(TOLD[0], lent), (10, 12));
    }
    assert_eq!(refused(TOLD[1], [12, 11]), (10, 12));
}

/// Each value that differs, and several, come before the lent text.
#[test]
fn values_that_differ() {
    for told in TOLD {
        for wrong in near(told).into_iter().chain(far(told)) {
            for lent in [ENOUGH, [15, 90], SHORT_TEXT, NO_TEXT] {
                assert_eq!(refused(wrong, lent), (11, 12), "{wrong:?}");
            }
        }
    }
    let [first, last] = TOLD;
    for wrong in [Told { unit: 1, ..first }, Told { unit: 0, ..last }] {
        assert_eq!(refused(wrong, ENOUGH), (11, 12));
    }
}

/// The number named comes before the values, and the work numbers before both.
#[test]
fn numbers_before_values() {
    let [first, last] = TOLD;
    for unit in NONE {
        for told in [Told { unit, ..last }, Told { unit, ..first }] {
            assert_eq!(refused(told, ENOUGH), (9, 12));
            assert_eq!(refused(told, NO_TEXT), (9, 12));
            assert_eq!(refused(told, SHORT_WORK), (8, 0));
            assert_eq!(refused(told, [0, 0]), (8, 0));
        }
    }
    for told in [first, last].into_iter().chain(near(first)) {
        assert_eq!(refused(told, SHORT_WORK), (8, 0));
        assert_eq!(refused(told, [0, 0]), (8, 0));
    }
}

/// A refusal of the check comes first, however little is lent and whatever is told.
#[test]
fn refused_file() {
    let third = check(&SAMPLE[..100]);
    assert_eq!(third, Err(Refused { number: 3, at: 0 }));
    let seventh = Err(Refused { number: 7, at: 2 });
    for (checked, number, at) in [(third, 3, 0), (seventh, 7, 2)] {
        for work in [0, 12] {
            let none = measuring(number, at, Told::default(), 0);
            assert_eq!(measured(checked, &[], 5, work), none);
            for told in [TOLD[0], Told { unit: 5, ..TOLD[1] }] {
                let of = written(checked, &[], told, [work, 62]);
                assert_eq!(of, writing(number, at, 0, &[]));
            }
        }
    }
}

/// One value is off at a time, by one or, for the last mark, 2; where no block is done none can be
/// taken off.
#[test]
fn near_values() {
    let values = |told: Told| [told.length, told.done, told.last];
    let [first, last] = TOLD;
    let near_first = [
        [6, 2, 0],
        [4, 2, 0],
        [5, 3, 0],
        [5, 2, 1],
        [5, 2, 2],
        [5, 1, 0],
    ];
    assert!(near(first).into_iter().map(values).eq(near_first));
    let near_last = [
        [13, 3, 1],
        [11, 3, 1],
        [12, 4, 1],
        [12, 3, 0],
        [12, 3, 2],
        [12, 2, 1],
    ];
    assert!(near(last).into_iter().map(values).eq(near_last));
    assert_eq!(near(Told { done: 0, ..first }).len(), 5);
    assert!(near(last)
        .iter()
        .chain(&far(last))
        .all(|told| told.unit == 1));
}

/// Each value alone, and several, are right by their low 32 bits, or are the largest number.
#[test]
fn far_values() {
    let values = |told: Told| [told.length, told.done, told.last];
    let [_, last] = TOLD;
    let far = far(last).map(values);
    let off = |value: &[u64; 3]| [0, 1, 2].map(|n| value[n] != values(last)[n]);
    for n in 0..3 {
        let alone = |value: &&[u64; 3]| off(value) == [0, 1, 2].map(|m| m == n);
        let alone: Vec<u64> = far.iter().filter(alone).map(|value| value[n]).collect();
        assert_eq!(alone, [(1 << 32) + values(last)[n], u64::MAX]);
    }
    let several = |value: &&[u64; 3]| off(value).iter().filter(|&&off| off).count() > 1;
    assert_eq!(far.iter().filter(several).count(), 7);
}

/// Two groups after a front of three bytes, and the end.
#[test]
fn lengths_reached() {
    let unit = |text: &str| Unit {
        text: text.into(),
        done: 0,
    };
    let each = ["## one group ", "## another ", "## end"].map(unit);
    let whole = unit("## one group another end");
    assert_eq!(reached(&each, &whole), [13, 21]);
    assert_eq!(reached(&[unit("## end")], &unit("## end")), []);
}
