//! The manifest of a folder, and the command that holds the units against it.

mod common;

use common::{lone_blocks, names, read, recomp, Run, Scratch, PROGRAM};
use std::fs;
use std::os::unix::fs::symlink;
use std::process::Command;

/// A folder with four units.
struct Units {
    scratch: Scratch,
    folder: String,
}

impl Units {
    fn new() -> Units {
        let scratch = Scratch::new();
        let folder = scratch.join("units");
        let path = scratch.file("three.blk", &lone_blocks(3).bytes);
        recomp(&["units", &path, "-o", &folder, "--unit-size", "0"]).printed();
        Units { scratch, folder }
    }

    fn path(&self, name: &str) -> String {
        format!("{}/{name}", self.folder)
    }

    fn change(&self, name: &str, change: impl FnOnce(&mut Vec<u8>)) {
        let mut bytes = read(&self.folder, name);
        change(&mut bytes);
        fs::write(self.path(name), bytes).expect("a file");
    }

    fn verify(&self) -> Run {
        // A pipe is not waited for.
        let mut command = Command::new("timeout");
        command.args(["60", PROGRAM, "verify", &self.folder]);
        Run::of(command.output().expect("timeout runs"))
    }

    /// The line of a failure that names a file, without start and advice.
    #[track_caller]
    fn wrong(&self, name: &str, status: i32) -> String {
        let line = self.verify().failed(status);
        let start = format!("recomp: {} ", self.path(name));
        let what = line.strip_prefix(&start).expect(&line);
        what.split_once("; ").expect("advice").0.into()
    }

    fn pipe(&self, name: &str) {
        let made = Command::new("mkfifo").arg(self.path(name)).status();
        assert!(made.expect("mkfifo runs").success());
    }

    /// What `sha256sum -c` says of the folder.
    fn stock_tool(&self) -> Run {
        let mut command = Command::new("sha256sum");
        command.args(["-c", "--strict", "units.txt"]);
        let output = command.current_dir(&self.folder).output();
        Run::of(output.expect("sha256sum runs"))
    }
}

#[test]
fn the_manifest_has_size_limit_lengths_sums_and_totals() {
    let units = Units::new();
    let text = String::from_utf8(read(&units.folder, "units.txt")).expect("UTF-8");
    let mut lines = text.lines().skip(1);
    let mut line = || lines.next().expect("a line");
    assert_eq!([line(), line()], ["# size 0", "# limit 8192"]);
    let mut bytes = 0;
    for unit in 0..4 {
        let name = format!("unit_{unit:03}.c");
        let length = read(&units.folder, &name).len();
        assert_eq!(line(), format!("# length {length}"));
        assert!(line().ends_with(&format!("  {name}")));
        bytes += length;
    }
    assert_eq!([line(), line()], ["# units 4", "# blocks 3"]);
    assert_eq!(line(), format!("# bytes {bytes}"));
    assert_eq!(lines.next(), None);
    let totals = format!("verified: units 4, blocks 3, bytes {bytes}\n");
    assert_eq!(units.verify().printed(), totals);
}

#[test]
fn a_stock_tool_reads_the_manifest() {
    let units = Units::new();
    let all = (0..4).map(|unit| format!("unit_{unit:03}.c: OK\n"));
    assert_eq!(units.stock_tool().printed(), all.collect::<String>());
    units.change("unit_002.c", |bytes| bytes[100] ^= 1);
    assert_eq!(units.stock_tool().status, Some(1));
}

#[test]
fn a_unit_is_missing() {
    let units = Units::new();
    for name in ["unit_003.c", "unit_001.c"] {
        fs::remove_file(units.path(name)).expect("a unit");
        assert_eq!(units.wrong(name, 1), "is missing");
    }
}

#[test]
fn a_unit_is_longer_shorter_or_different() {
    for name in ["unit_000.c", "unit_003.c"] {
        let units = Units::new();
        let whole = read(&units.folder, name);
        let length = whole.len();
        units.change(name, |bytes| bytes.push(b'\n'));
        let what = format!("than units.txt says: {} bytes, not {length}", length + 1);
        assert_eq!(units.wrong(name, 1), format!("is longer {what}"));
        units.change(name, |bytes| bytes.truncate(length - 1));
        let what = format!("than units.txt says: {} bytes, not {length}", length - 1);
        assert_eq!(units.wrong(name, 1), format!("is shorter {what}"));
        for place in [0, length / 2, length - 1] {
            units.change(name, |bytes| bytes.clone_from(&whole));
            units.verify().printed();
            units.change(name, |bytes| bytes[place] ^= 1);
            let what = units.wrong(name, 1);
            assert!(
                what.starts_with("is different from what units.txt says: "),
                "{what}"
            );
        }
    }
}

#[test]
fn the_first_unit_that_is_wrong_is_named() {
    let units = Units::new();
    units.change("unit_003.c", Vec::clear);
    units.change("unit_001.c", |bytes| bytes[7] ^= 1);
    fs::write(units.path("unit_009.c"), "").expect("a file");
    fs::remove_file(units.path("unit_002.c")).expect("a unit");
    let what = units.wrong("unit_001.c", 1);
    assert!(what.starts_with("is different "), "{what}");
}

#[test]
fn a_unit_that_the_manifest_does_not_have() {
    let units = Units::new();
    for other in ["main.c", "unit_4.c", "unit_004.c.tmp"] {
        fs::write(units.path(other), "").expect("a file");
    }
    fs::create_dir(units.path("unit_005.c")).expect("a folder");
    units.verify().printed();
    symlink("unit_000.c", units.path("unit_1000.c")).expect("a link");
    assert_eq!(units.wrong("unit_1000.c", 1), "is not in units.txt");
    fs::write(units.path("unit_004.c"), "").expect("a file");
    assert_eq!(units.wrong("unit_004.c", 1), "is not in units.txt");
}

#[test]
fn links_pipes_and_folders_are_no_units() {
    let units = Units::new();
    let unit = units.path("unit_002.c");
    let aside = units.scratch.join("aside");
    fs::rename(&unit, &aside).expect("the unit goes");
    symlink(&aside, &unit).expect("a link");
    assert_eq!(units.wrong("unit_002.c", 1), "is no plain file");
    fs::remove_file(&unit).expect("the link");
    units.pipe("unit_002.c");
    assert_eq!(units.wrong("unit_002.c", 1), "is no plain file");
    fs::remove_file(&unit).expect("the pipe");
    fs::create_dir(&unit).expect("a folder");
    assert_eq!(units.wrong("unit_002.c", 1), "is no plain file");
}

#[test]
fn no_manifest() {
    let units = Units::new();
    let manifest = units.path("units.txt");
    let whole = fs::read_to_string(&manifest).expect("the manifest");
    let wrong = |what: &str| {
        let all = format!("{what}, so no run of recomp units ended there");
        assert_eq!(units.wrong("units.txt", 2), all);
    };
    for text in [
        "",
        "units",
        &whole[1..],
        &whole[..whole.len() - 1],
        "\u{fffd}",
    ] {
        fs::write(&manifest, text).expect("a file");
        wrong("is no manifest");
    }
    fs::write(&manifest, [0xff; 10]).expect("a file");
    wrong("is no manifest");
    let long = fs::File::create(&manifest).expect("a file");
    long.set_len(100 << 30).expect("a sparse file");
    wrong("is no manifest");
    fs::remove_file(&manifest).expect("the manifest");
    wrong("is missing");
    units.pipe("units.txt");
    wrong("is no plain file");
}

#[test]
fn no_folder() {
    let units = Units::new();
    let plain = units.scratch.file("plain", b"");
    let pipe = units.scratch.join("pipe");
    let made = Command::new("mkfifo").arg(&pipe).status();
    assert!(made.expect("mkfifo runs").success());
    for folder in [plain, pipe, units.scratch.join("missing")] {
        let mut command = Command::new("timeout");
        let output = command.args(["60", PROGRAM, "verify", &folder]).output();
        let line = Run::of(output.expect("timeout runs")).failed(2);
        let start = format!("recomp: cannot open {folder}: ");
        assert!(line.starts_with(&start), "{line}");
        assert!(line.ends_with("; name a folder of units"), "{line}");
    }
    assert!(!names(units.scratch.path().to_str().expect("UTF-8")).contains(&"missing".into()));
}
