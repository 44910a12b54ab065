//! The command that measures units: what it prints is what `recomp units` then writes; and units
//! that there are not.

mod common;

use common::{lone_blocks, names, read, recomp, recomp_on, Scratch};
use recomp_tools::generate::{self, Params};
use recomp_tools::samples;

/// Options for several sizes, none for that which is taken unless one is given.
const SIZES: [&[&str]; 4] = [
    &["--unit-size", "0"],
    &["--unit-size=64K"],
    &["--unit-size", "18446744073709551615"],
    &[],
];

/// The samples, generated files, and one with several units of 64 KiB.
fn files() -> Vec<Vec<u8>> {
    let samples = samples::all().into_iter().map(|(_, file)| file);
    let small = (0..5).map(|seed| generate::file(&Params::small(seed)).bytes);
    let many = lone_blocks(1000).bytes;
    samples.chain(small).chain([many]).collect()
}

/// What a run of `recomp units` left and printed.
struct Written {
    units: Vec<String>,
    totals: String,
}

fn written(path: &str, size: &[&str]) -> Written {
    let scratch = Scratch::new();
    let folder = scratch.join("units");
    let totals = recomp(&[&["units", path, "-o", &folder], size].concat()).printed();
    let count = names(&folder).len() - 1;
    // As the help says of what is not measured.
    assert!(read(&folder, "units.txt").len() <= 128 * count + 256);
    let unit = |n| read(&folder, &format!("unit_{n:03}.c"));
    let unit = |n| String::from_utf8(unit(n)).expect("units are UTF-8");
    let units = (0..count).map(unit).collect();
    Written { units, totals }
}

/// How many blocks a unit has: each has one function, and no other line starts so.
fn blocks(unit: &str) -> usize {
    let starts = |line: &&str| line.starts_with("uint32_t b_");
    unit.lines().filter(starts).count()
}

#[test]
fn the_lengths_are_those_of_the_units_that_are_written() {
    let scratch = Scratch::new();
    for file in files() {
        let path = &scratch.file("measured.blk", &file);
        for size in SIZES {
            let Written { units, totals } = written(path, size);
            let lines = units.iter().enumerate();
            let lines = lines.map(|(n, unit)| format!("{n} {}\n", unit.len()));
            let lines: String = lines.collect();
            let printed = recomp(&[&["measure", path], size].concat()).printed();
            assert_eq!(printed, format!("unit length\n{lines}{totals}"));
        }
    }
}

#[test]
fn one_unit_with_the_blocks_done_and_the_last_mark() {
    let scratch = Scratch::new();
    for file in files() {
        let path = &scratch.file("measured.blk", &file);
        for size in SIZES {
            let units = written(path, size).units;
            for (n, unit) in units.iter().enumerate().rev().take(5) {
                let done: usize = units[..=n].iter().map(|unit| blocks(unit)).sum();
                let last = u8::from(n + 1 == units.len());
                let line = format!("{n} {} {done} {last}\n", unit.len());
                let printed = recomp(&[&["measure", path, &n.to_string()], size].concat());
                assert_eq!(printed.printed(), format!("unit length done last\n{line}"));
            }
        }
    }
}

#[test]
fn options_may_stand_anywhere_and_standard_input_will_do() {
    let scratch = Scratch::new();
    let file = lone_blocks(3).bytes;
    let path = scratch.file("three.blk", &file);
    let all = recomp(&["measure", &path, "--unit-size", "0"]).printed();
    let run = recomp_on(&file, &["measure", "--unit-size=0", "-"]);
    assert_eq!(run.printed(), all);
    let one = recomp(&["measure", &path, "2", "--unit-size", "0"]).printed();
    for args in [
        ["measure", "--unit-size=0", "-", "2"],
        ["measure", "-", "--unit-size=0", "2"],
        ["measure", "-", "2", "--unit-size=0"],
    ] {
        assert_eq!(recomp_on(&file, &args).printed(), one);
    }
}

/// The line for a unit that a file with so many blocks does not have at a size.
fn refused(blocks: u32, unit: &str, size: &str) -> String {
    let args = ["measure", "-", unit, "--unit-size", size];
    let line = recomp_on(&lone_blocks(blocks).bytes, &args).failed(1);
    let start = format!("refused 9 at 0: standard input: there is no unit {unit}");
    line.strip_prefix(&start).expect("a refusal").into()
}

#[test]
fn units_that_there_are_not() {
    for unit in ["3", "4294967296", "18446744073709551615"] {
        let among = " among the 3 at this size; name one of units 0 to 2";
        assert_eq!(refused(2, unit, "0"), among);
    }
    // The last unit is there whatever the size and however few the blocks.
    for (blocks, size) in [(2, "1M"), (0, "0")] {
        for unit in ["1", "18446744073709551615"] {
            let only = "; name unit 0, the only one at this size";
            assert_eq!(refused(blocks, unit, size), only);
        }
    }
}
