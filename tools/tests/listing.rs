//! The listing against document 01: its example, other lines, and what a call leaves.

use recomp_tools::check::{check, Accepted, Refused};
use recomp_tools::listing::{outcome, text, ListingNumbers, Outcome, Row};
use recomp_tools::model;

const SAMPLE: &[u8] = include_bytes!("../../samples/three_blocks.blk");

const EXAMPLE: &str = "\
key group exits
08000000 1 08000008
08000004 0 -
08000008 1 -
";

#[test]
fn sample() {
    assert_eq!(model::listing(SAMPLE), EXAMPLE);
}

#[test]
fn no_blocks() {
    assert_eq!(text(&[], &[]), "key group exits\n");
}

/// Lines come in file order whatever the plan's; a Thumb key is odd, and 10 a group in decimal.
#[test]
fn lines() {
    let row = |key, exits: &[u32]| Row {
        key,
        exits: exits.to_vec(),
    };
    let rows = [row(0x1, &[0xabc, 0xffff_ffff]), row(0x0300_0abc, &[0])];
    let lines = "00000001 10 00000abc ffffffff\n03000abc 9 00000000\n";
    let expected = format!("key group exits\n{lines}");
    assert_eq!(text(&rows, &[[9, 1], [10, 0]]), expected);
}

fn refused(number: u32, at: u64, cleared: usize) -> Outcome<'static> {
    let numbers = ListingNumbers {
        number,
        at,
        length: 0,
    };
    Outcome {
        numbers,
        cleared,
        front: &[],
    }
}

#[test]
fn buffers() {
    let checked = check(SAMPLE);
    assert!(matches!(checked, Ok(Accepted { blocks: 3, .. })));
    let of = |lent| outcome(checked, EXAMPLE.as_bytes(), lent);
    // 16, 20, 13 and 13 bytes.
    let numbers = ListingNumbers {
        number: 0,
        at: 0,
        length: 62,
    };
    let listed = Outcome {
        numbers,
        cleared: 12,
        front: EXAMPLE.as_bytes(),
    };
    assert_eq!(of([12, 62]), listed);
    assert_eq!(of([15, 70]), listed);
    assert_eq!(of([12, 61]), refused(10, 0, 12));
    assert_eq!(of([15, 0]), refused(10, 0, 12));
    assert_eq!(of([11, 62]), refused(8, 0, 0));
    assert_eq!(of([0, 0]), refused(8, 0, 0));
}

/// A refusal of the check comes first, however little is lent.
#[test]
fn refused_file() {
    let checked = check(&SAMPLE[..100]);
    assert_eq!(checked, Err(Refused { number: 3, at: 0 }));
    assert_eq!(outcome(checked, &[], [0, 0]), refused(3, 0, 0));
    let seventh = Err(Refused { number: 7, at: 2 });
    assert_eq!(outcome(seventh, &[], [12, 62]), refused(7, 2, 0));
}
