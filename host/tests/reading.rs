//! Commands that read a file and print: their text against the plain Rust of the tools, and input
//! that fails.

mod common;

use common::{lone_blocks, program, recomp, recomp_on, sample, Run, Scratch, PROGRAM, READING};
use recomp_tools::generate::{self, Params};
use recomp_tools::{check, model, reasons};
use std::fmt::Write;
use std::fs::{self, File, Permissions};
use std::os::unix::fs::{MetadataExt, PermissionsExt};
use std::os::unix::process::CommandExt;
use std::path::Path;
use std::process::{Command, Stdio};

/// Files without blocks, with some, and with as many as there may be.
fn files() -> Vec<Vec<u8>> {
    let small = (0..20).map(|seed| generate::file(&Params::small(seed)).bytes);
    let most = generate::file(&Params::chain(1)).bytes;
    small.chain([lone_blocks(0).bytes, most]).collect()
}

#[test]
fn check_prints_the_counts() {
    for file in files() {
        let counts = check::check(&file).expect("an accepted file");
        let (blocks, instructions) = (counts.blocks, counts.instructions);
        let line = format!("accepted: blocks {blocks}, instructions {instructions}\n");
        assert_eq!(recomp_on(&file, &["check", "-"]).printed(), line);
    }
}

#[test]
fn plan_prints_group_and_block() {
    for file in files() {
        let mut text = String::from("group block\n");
        for [group, block] in model::plan(&file) {
            writeln!(text, "{group} {block}").expect("a string takes all");
        }
        assert_eq!(recomp_on(&file, &["plan", "-"]).printed(), text);
    }
}

#[test]
fn page_prints_all_pages_or_one() {
    for file in files() {
        let pages = model::pages(&file);
        assert_eq!(recomp_on(&file, &["page", "-"]).printed(), pages.concat());
        for (before, page) in pages.iter().enumerate().rev().take(5) {
            let one = recomp_on(&file, &["page", "-", &(before + 1).to_string()]);
            assert_eq!(one.printed(), *page);
        }
    }
}

#[test]
fn listing_prints_the_listing() {
    for file in files() {
        let text = model::listing(&file);
        assert_eq!(recomp_on(&file, &["listing", "-"]).printed(), text);
    }
}

/// A line as `exits` prints it.
fn exits_line(block: usize, exits: &[u32]) -> String {
    let keys: Vec<_> = exits.iter().map(|key| format!("{key:08x}")).collect();
    let keys = keys.join(" ");
    format!("{block} {}\n", if exits.is_empty() { "-" } else { &keys })
}

#[test]
fn exits_prints_all_blocks_or_one() {
    for file in files() {
        let exits = model::exits(&file);
        let lines = exits.iter().enumerate();
        let lines: Vec<_> = lines.map(|(n, keys)| exits_line(n, keys)).collect();
        let all = format!("block exits\n{}", lines.concat());
        assert_eq!(recomp_on(&file, &["exits", "-"]).printed(), all);
        for (block, line) in lines.iter().enumerate().rev().take(5) {
            let one = recomp_on(&file, &["exits", "-", &block.to_string()]);
            assert_eq!(one.printed(), format!("block exits\n{line}"));
        }
    }
}

#[test]
fn reasons_prints_all_sentences_or_one() {
    for file in files() {
        let sentences = reasons::sentences(&file);
        let all = sentences.iter().flatten();
        let all: String = all.map(|sentence| format!("{sentence}\n")).collect();
        assert_eq!(recomp_on(&file, &["reasons", "-"]).printed(), all);
        for (n, sentence) in sentences.iter().enumerate().rev().take(5) {
            let one = recomp_on(&file, &["reasons", "-", &n.to_string()]);
            let line = sentence.as_ref().map(|sentence| format!("{sentence}\n"));
            assert_eq!((one.status, one.out), (Some(0), line.unwrap_or_default()));
        }
    }
}

#[test]
fn paths_are_read_as_standard_input_is() {
    let path = sample("three_blocks.blk");
    let bytes = fs::read(&path).expect("the sample");
    for command in READING {
        assert_eq!(
            recomp(&[command, &path]),
            recomp_on(&bytes, &[command, "-"])
        );
    }
}

#[test]
fn files_that_are_not_there_and_folders() {
    let scratch = Scratch::new();
    let folder = scratch.path().to_str().expect("a path in UTF-8");
    let missing = scratch.join("missing.blk");
    for command in READING {
        let line = recomp(&[command, &missing]).failed(2);
        assert!(
            line.starts_with(&format!("recomp: cannot read {missing}: ")),
            "{line}"
        );
        assert!(line.ends_with("; check the path"), "{line}");
        let line = recomp(&[command, folder]).failed(2);
        assert!(
            line.starts_with(&format!("recomp: cannot read {folder}: ")),
            "{line}"
        );
        assert!(
            line.ends_with("; name a block file, or - for standard input"),
            "{line}"
        );
    }
}

#[test]
fn a_folder_as_standard_input() {
    let scratch = Scratch::new();
    let folder = File::open(scratch.path()).expect("a folder");
    let output = program(&["check", "-"]).stdin(folder).output();
    let line = Run::of(output.expect("the program runs")).failed(2);
    assert!(
        line.starts_with("recomp: cannot read standard input: "),
        "{line}"
    );
}

/// The program as somebody who may not read everything: root may read a file of any mode.
fn unprivileged(scratch: &Scratch) -> Command {
    let own = fs::metadata(scratch.path()).expect("a folder").uid();
    if own != 0 {
        return Command::new(PROGRAM);
    }
    // The program may lie where others have no access.
    let copy = scratch.join("recomp");
    common::copy(Path::new(PROGRAM), Path::new(&copy));
    let mut command = Command::new(copy);
    command.uid(65_534).gid(65_534);
    command
}

#[test]
fn files_that_may_not_be_read() {
    let scratch = Scratch::new();
    let file = scratch.file("closed.blk", &lone_blocks(1).bytes);
    fs::set_permissions(&file, Permissions::from_mode(0o000)).expect("a mode");
    let output = unprivileged(&scratch).args(["check", &file]).output();
    let line = Run::of(output.expect("the program runs")).failed(2);
    assert!(
        line.starts_with(&format!("recomp: cannot read {file}: ")),
        "{line}"
    );
    assert!(line.ends_with("; ask for the right to read it"), "{line}");
}

#[test]
fn reading_that_breaks_off() {
    // The first page of a process is not there to be read.
    let line = recomp(&["check", "/proc/self/mem"]).failed(2);
    assert!(
        line.starts_with("recomp: cannot read /proc/self/mem: "),
        "{line}"
    );
    assert!(
        line.ends_with("; see that it can be read, then run again"),
        "{line}"
    );
}

/// The program with a gigabyte of memory, so that a file that is too long cannot be read first.
fn with_a_gigabyte(args: &[&str], input: Stdio) -> Run {
    let mut shell = Command::new("sh");
    shell.args(["-c", "ulimit -v 1000000; exec \"$0\" \"$@\"", PROGRAM]);
    let output = shell.args(args).stdin(input).output();
    Run::of(output.expect("the shell runs"))
}

/// A file of nothing but zeros, which takes no room on the disk.
fn sparse(scratch: &Scratch, length: u64) -> String {
    let path = scratch.join("sparse.blk");
    let file = File::create(&path).expect("a file");
    file.set_len(length).expect("a sparse file");
    path
}

#[test]
fn files_longer_than_any_block_file_are_not_read() {
    let scratch = Scratch::new();
    let folder = scratch.join("units");
    for length in [100 << 30, 1 << 32] {
        let path = sparse(&scratch, length);
        let long = "is longer than 4294967295 bytes, as no block file is; name a block file";
        for command in READING.into_iter().chain(["units"]) {
            let args = [command, &path, "-o", &folder];
            let args = if command == "units" {
                &args[..]
            } else {
                &args[..2]
            };
            let line = with_a_gigabyte(args, Stdio::null()).failed(2);
            assert_eq!(line, format!("recomp: {path} {long}"));
        }
        let input = File::open(&path).expect("the file");
        let line = with_a_gigabyte(&["check", "-"], input.into()).failed(2);
        assert_eq!(line, format!("recomp: standard input {long}"));
    }
    assert!(!fs::exists(folder).expect("an answer"), "no folder is made");
}

/// One byte less may be a block file; here there is no memory for it.
#[test]
fn a_file_that_memory_does_not_suffice_for() {
    let scratch = Scratch::new();
    let path = sparse(&scratch, u32::MAX.into());
    let line = with_a_gigabyte(&["check", &path], Stdio::null()).failed(2);
    let start = format!("recomp: cannot read {path}: ");
    assert!(line.starts_with(&start), "{line}");
    assert!(
        line.ends_with("; free memory, or run on a larger machine"),
        "{line}"
    );
}

#[test]
fn standard_input_is_read_from_the_place_reached() {
    let scratch = Scratch::new();
    let file = lone_blocks(2).bytes;
    let path = scratch.file("after.blk", &[b"line\n", &file[..]].concat());
    let script = "read -r line; exec \"$0\" check -";
    let mut shell = Command::new("sh");
    shell
        .args(["-c", script, PROGRAM])
        .stdin(File::open(path).expect("the file"));
    let printed = Run::of(shell.output().expect("the shell runs")).printed();
    assert_eq!(printed, "accepted: blocks 2, instructions 2\n");
}

#[test]
fn standard_input_that_cannot_be_read() {
    let input = File::options().write(true).open("/dev/null");
    let output = program(&["check", "-"])
        .stdin(input.expect("the device"))
        .output();
    let line = Run::of(output.expect("the program runs")).failed(2);
    assert!(
        line.starts_with("recomp: cannot read standard input: Bad file"),
        "{line}"
    );
}
