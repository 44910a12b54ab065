//! The command that writes units: texts, names, old files in the folder, and runs that end early.

mod common;

use common::stop::Halted;
use common::{
    assert_units, expected, has_units, lone, lone_blocks, names, read, recomp, recomp_on, sample,
    with_memory,
};
use common::{Run, Scratch, PROGRAM};
use recomp_tools::file::{build, Block};
use recomp_tools::generate::{self, Params};
use recomp_tools::record::Record;
use std::fs;
use std::path::Path;
use std::process::Command;

#[test]
fn units_of_small_files_at_several_sizes() {
    let scratch = Scratch::new();
    let folder = &scratch.join("units");
    for seed in 0..20 {
        let file = generate::file(&Params::small(seed)).bytes;
        let path = &scratch.file("small.blk", &file);
        for (text, size) in [("0", 0), ("4K", 4 << 10), ("1M", 1 << 20), ("5000", 5000)] {
            let run = recomp(&["units", path, "-o", folder, "--unit-size", text]);
            assert_units(run, folder, &file, size);
        }
        assert_units(
            recomp(&["units", path, "-o", folder]),
            folder,
            &file,
            1 << 20,
        );
    }
}

#[test]
fn options_may_stand_anywhere_and_standard_input_will_do() {
    let scratch = Scratch::new();
    let folder = &scratch.join("made/if/missing");
    let file = lone_blocks(3).bytes;
    let run = recomp_on(&file, &["units", "-o", folder, "--unit-size=0", "-"]);
    assert_units(run, folder, &file, 0);
}

#[test]
fn the_largest_size_takes_no_more_memory_than_the_text() {
    let scratch = Scratch::new();
    let folder = &scratch.join("units");
    let file = lone_blocks(3).bytes;
    let size = u64::MAX.to_string();
    let run = recomp_on(&file, &["units", "-", "-o", folder, "--unit-size", &size]);
    assert_units(run, folder, &file, u64::MAX);
}

#[test]
fn any_bound_on_memory_gives_the_same_units() {
    let scratch = Scratch::new();
    let folder = &scratch.join("units");
    for seed in 0..5 {
        let file = generate::file(&Params::small(seed)).bytes;
        let path = &scratch.file("small.blk", &file);
        for memory in ["0", "1", "4K", "5000", "12K", "18446744073709551615"] {
            let args = ["units", path, "-o", folder, "--unit-size", "0", "--memory"];
            assert_units(recomp(&[&args[..], &[memory]].concat()), folder, &file, 0);
        }
        let run = recomp(&["units", path, "-o", folder, "--memory=100"]);
        assert_units(run, folder, &file, 1 << 20);
    }
}

/// A file of so many blocks, each with as much text as 40,000 instructions have.
fn long_blocks(count: u32) -> Vec<u8> {
    let block = |n| Block {
        records: vec![Record::swi([0; 12]); 40_000],
        ..lone(0x0800_0000 + 160_000 * n, Record::bx(14))
    };
    let blocks: Vec<_> = (0..count).map(block).collect();
    build(&blocks).bytes
}

#[test]
fn a_unit_longer_than_the_bound() {
    let scratch = Scratch::new();
    let folder = &scratch.join("units");
    let file = long_blocks(2);
    assert!(expected(&file, 0)[0].len() > 2 << 20);
    let args = [
        "units",
        "-",
        "-o",
        folder,
        "--unit-size",
        "0",
        "--memory",
        "1M",
    ];
    assert_units(recomp_on(&file, &args), folder, &file, 0);
}

/// 6 units of over 2 MiB each, with memory for the file (4 MiB) and for some of them.
#[test]
fn short_memory_is_said_and_the_units_are_the_same() {
    let scratch = Scratch::new();
    let folder = &scratch.join("units");
    let file = long_blocks(6);
    let path = &scratch.file("long.blk", &file);
    let args = ["units", path, "-o", folder, "--unit-size", "0"];
    let mut run = with_memory(14 << 10, &args);
    let line = std::mem::take(&mut run.err);
    assert!(
        line.starts_with("recomp: memory is short: text of "),
        "{line}"
    );
    assert!(line.ends_with(", which takes longer\n"), "{line}");
    assert_units(run, folder, &file, 0);
}

/// As one unit the text is longer than the memory, which does for measuring it.
#[test]
fn memory_too_short_for_a_unit_leaves_the_folder_as_it_was() {
    let scratch = Scratch::new();
    let folder = &scratch.join("units");
    let path = &scratch.file("long.blk", &long_blocks(6));
    let measured = with_memory(14 << 10, &["measure", path, "--unit-size", "1024M"]);
    assert!(measured.printed().contains("\nunits 1, blocks 6, bytes "));
    let args = ["units", path, "-o", folder, "--unit-size", "1024M"];
    let line = with_memory(14 << 10, &args).failed(2);
    assert!(
        line.contains(" bytes of memory could not be had; "),
        "{line}"
    );
    assert!(!Path::new(folder).exists());
}

/// Among these there is memory for the stack of a thread, 2 MiB, and for nothing more.
#[test]
fn memory_for_little_more_or_less_than_a_thread() {
    let scratch = Scratch::new();
    let folder = &scratch.join("units");
    let path = &scratch.file("many.blk", &lone_blocks(1000).bytes);
    let run = |kib: u64| with_memory(kib, &["units", path, "-o", folder]);
    let done = |run: &Run| run.status == Some(0);
    let least = (3 << 10..).step_by(64).find(|&kib| done(&run(kib)));
    let thread = least.expect("a bound") + (2 << 10);
    for kib in (thread - 128..thread + 512).step_by(16) {
        let run = run(kib);
        assert!(done(&run), "{kib} KiB: {run:?}");
    }
}

#[test]
fn more_than_a_thousand_units() {
    let scratch = Scratch::new();
    let folder = &scratch.join("units");
    let file = lone_blocks(1001).bytes;
    let run = recomp_on(&file, &["units", "-", "-o", folder, "--unit-size", "0"]);
    assert!(run.printed().starts_with("units 1002, blocks 1001, "));
    let names = names(folder);
    assert_eq!(names.len(), 1003);
    for name in [
        "unit_000.c",
        "unit_999.c",
        "unit_1000.c",
        "unit_1001.c",
        "units.txt",
    ] {
        assert!(names.iter().any(|n| n == name), "{name}");
    }
}

#[test]
fn older_units_go_and_all_else_stays() {
    let scratch = Scratch::new();
    let folder = &scratch.join("units");
    let path = &scratch.file("three.blk", &lone_blocks(3).bytes);
    recomp(&["units", path, "-o", folder, "--unit-size", "0"]).printed();
    let kept = [
        "unit_2.c",
        "unit_0002.c",
        "unit_002.h",
        "unit_x.c",
        "main.c",
        "unit_002.c.orig",
    ];
    for name in kept
        .into_iter()
        .chain(["unit_017.c", "unit_1234.c", "unit_002.c.tmp"])
    {
        fs::write(Path::new(folder).join(name), name).expect("a file");
    }
    fs::create_dir(Path::new(folder).join("unit_050.c")).expect("a folder");
    recomp(&["units", path, "-o", folder]).printed();
    let mut left: Vec<_> = kept
        .into_iter()
        .chain(["unit_000.c", "unit_050.c", "units.txt"])
        .collect();
    left.sort();
    assert_eq!(names(folder), left);
    for name in kept {
        assert_eq!(read(folder, name), name.as_bytes());
    }
}

#[test]
fn a_refused_file_leaves_the_folder_as_it_was() {
    let scratch = Scratch::new();
    let folder = &scratch.join("units");
    let file = lone_blocks(3).bytes;
    assert_units(
        recomp_on(&file, &["units", "-", "-o", folder]),
        folder,
        &file,
        1 << 20,
    );
    let line = recomp_on(&file[1..], &["units", "-", "-o", folder]).failed(1);
    assert!(line.starts_with("refused 3 at 0: "), "{line}");
    assert!(has_units(folder, &file, 1 << 20));
}

#[test]
fn an_interrupted_run_leaves_the_units_before_it_and_the_next_run_cleans_up() {
    let scratch = Scratch::new();
    let folder = &scratch.join("units");
    recomp(&["units", &sample("three_blocks.blk"), "-o", folder]).printed();
    let file = lone_blocks(3).bytes;
    let path = &scratch.file("three.blk", &file);
    let args = ["units", path, "-o", folder, "--unit-size", "0"];
    Halted::before(&args, "write", 3).kill();
    let of_old = fs::read(sample("three_blocks.blk")).expect("the sample");
    assert_eq!(read(folder, "unit_000.c"), expected(&of_old, 1 << 20)[0]);
    let temporary = ["unit_000.c.tmp", "unit_001.c.tmp", "unit_002.c.tmp"];
    assert_eq!(names(folder), [&["unit_000.c"], &temporary[..]].concat());
    assert_units(recomp(&args), folder, &file, 0);
}

/// The program where no file may become longer than 2 or 4 KiB, as shells count; `prepare` stands
/// before.
fn limited(prepare: &str, folder: &str) -> std::process::Output {
    let script = format!("{prepare} ulimit -f 4; exec \"$0\" \"$@\"");
    let mut command = Command::new("sh");
    command.args(["-c", &script, PROGRAM, "units", "-", "-o", folder]);
    let file = fs::File::open(sample("three_blocks.blk")).expect("the sample");
    command.stdin(file).output().expect("the shell runs")
}

/// Longer than the limit, so that it can come from an unlimited run alone.
fn older_unit(folder: &str) -> Vec<u8> {
    let file = lone_blocks(50).bytes;
    assert_units(
        recomp_on(&file, &["units", "-", "-o", folder]),
        folder,
        &file,
        1 << 20,
    );
    read(folder, "unit_000.c")
}

#[test]
fn a_disk_without_room_leaves_the_units_before() {
    let scratch = Scratch::new();
    let folder = &scratch.join("units");
    let old = older_unit(folder);
    let output = limited("trap '' XFSZ;", folder);
    let line = Run::of(output).failed(2);
    let start = format!("recomp: cannot write {folder}/unit_000.c.tmp: File too large");
    assert!(line.starts_with(&start), "{line}");
    assert!(
        line.ends_with("; make room or get the right to write there, then run again"),
        "{line}"
    );
    assert_eq!(names(folder), ["unit_000.c"]);
    assert_eq!(read(folder, "unit_000.c"), old);
}

#[test]
fn a_run_ended_by_the_system_leaves_the_units_before() {
    let scratch = Scratch::new();
    let folder = &scratch.join("units");
    let old = older_unit(folder);
    assert_eq!(limited("", folder).status.code(), None);
    assert_eq!(names(folder), ["unit_000.c", "unit_000.c.tmp"]);
    assert_eq!(read(folder, "unit_000.c"), old);
}

#[test]
fn folders_that_cannot_be_made_or_written() {
    let scratch = Scratch::new();
    let path = &sample("three_blocks.blk");
    let file = scratch.file("plain", b"");
    for folder in [&file, "/proc/units"] {
        let line = recomp(&["units", path, "-o", folder]).failed(2);
        assert!(
            line.starts_with(&format!("recomp: cannot make the folder {folder}: ")),
            "{line}"
        );
        assert!(line.ends_with("; name another with -o"), "{line}");
    }
    let line = recomp(&["units", path, "-o", "/proc/self/fd"]).failed(2);
    assert!(
        line.starts_with("recomp: cannot write /proc/self/fd/units.txt.tmp: "),
        "{line}"
    );
}
