//! The folder of the units: two runs in it, what stands in the way, and runs that are killed or
//! fail at any call that changes files.

mod common;

use common::stop::{stopping, By, Halted};
use common::{
    assert_units, contents, has_units, lone_blocks, names, recomp, Run, Scratch, PROGRAM,
};
use std::fs;
use std::os::unix::fs::symlink;
use std::path::Path;
use std::process::Command;

/// Two block files, of which the first has more units than the second, and a folder for them.
struct Titles {
    scratch: Scratch,
    folder: String,
    first: Vec<u8>,
    second: Vec<u8>,
}

impl Titles {
    fn new() -> Titles {
        let scratch = Scratch::new();
        let (first, second) = (lone_blocks(4).bytes, lone_blocks(2).bytes);
        scratch.file("first.blk", &first);
        scratch.file("second.blk", &second);
        Titles {
            folder: scratch.join("units"),
            scratch,
            first,
            second,
        }
    }

    /// The arguments that have units of a title written, one for each block and one more.
    fn args(&self, title: &str) -> Vec<String> {
        let file = self.scratch.join(&format!("{title}.blk"));
        let args = ["units", &file, "-o", &self.folder, "--unit-size", "0"];
        args.map(String::from).to_vec()
    }

    fn run(&self, title: &str) -> Run {
        recomp(&self.args(title))
    }

    /// The units of a title, written to the end.
    fn write(&self, title: &str) {
        self.run(title).printed();
    }

    fn halted(&self, title: &str, call: &str, at: u32) -> Halted {
        let args = self.args(title);
        let args: Vec<_> = args.iter().map(String::as_str).collect();
        Halted::before(&args, call, at)
    }

    fn in_folder(&self, name: &str) -> String {
        format!("{}/{name}", self.folder)
    }

    fn pipe(&self, name: &str) {
        let made = Command::new("mkfifo").arg(self.in_folder(name)).status();
        assert!(made.expect("mkfifo runs").success());
    }

    #[track_caller]
    fn has(&self, title: &[u8]) {
        assert!(
            has_units(&self.folder, title, 0),
            "{:?}",
            names(&self.folder)
        );
    }
}

#[test]
fn a_second_run_ends_at_once_and_touches_nothing() {
    let titles = Titles::new();
    titles.write("second");
    // In the midst of writing, of renaming, and before the manifest has its name.
    for (call, at) in [("write", 2), ("rename", 2), ("rename", 6)] {
        let halted = titles.halted("first", call, at);
        let before = contents(&titles.folder);
        let line = titles.run("second").failed(2);
        let what = format!("another run of recomp is at work in {}", titles.folder);
        let advice = "wait until it ends, or name another folder";
        assert_eq!(line, format!("recomp: {what}; {advice}"));
        assert_eq!(recomp(&["verify", &titles.folder]).failed(2), line);
        assert!(contents(&titles.folder) == before);
        assert_units(halted.end(), &titles.folder, &titles.first, 0);
        titles.write("second");
    }
}

#[test]
fn the_lock_ends_with_the_run_that_was_killed() {
    let titles = Titles::new();
    titles.halted("first", "rename", 2).kill();
    titles.write("second");
    titles.has(&titles.second);
}

/// Both runs are in the midst of their work when the first goes on.
#[test]
fn a_folder_made_anew_during_a_run_is_left_alone() {
    for (call, at) in [("open", 3), ("rename", 1), ("rename", 3), ("rename", 6)] {
        let titles = Titles::new();
        let first = titles.halted("first", call, at);
        fs::remove_dir_all(&titles.folder).expect("the folder goes");
        let second = titles.halted("second", "rename", 2);
        let line = first.end().failed(2);
        assert!(line.starts_with("recomp: cannot write "), "{line}");
        assert_units(second.end(), &titles.folder, &titles.second, 0);
    }
}

/// The program, ended with status 124 if it waits for a pipe.
fn in_time(args: &[String]) -> Run {
    let mut command = Command::new("timeout");
    let output = command.arg("60").arg(PROGRAM).args(args).output();
    Run::of(output.expect("timeout runs"))
}

/// Names that a run writes or removes, the last one beyond the units that it has.
const WRITTEN: [&str; 6] = [
    "unit_000.c.tmp",
    "units.txt.tmp",
    "unit_000.c",
    "units.txt",
    "unit_007.c",
    "unit_007.c.tmp",
];

#[test]
fn links_in_the_way_go_and_what_they_lead_to_stays() {
    for name in WRITTEN {
        for target in ["outside", "missing"] {
            let titles = Titles::new();
            let outside = titles.scratch.file("outside", b"kept");
            fs::create_dir(&titles.folder).expect("a folder");
            let target = titles.scratch.join(target);
            symlink(&target, titles.in_folder(name)).expect("a link");
            let run = in_time(&titles.args("first"));
            assert_units(run, &titles.folder, &titles.first, 0);
            assert_eq!(fs::read(outside).expect("the file"), b"kept", "{name}");
            assert!(!Path::new(&titles.scratch.join("missing")).exists());
            for name in names(&titles.folder) {
                let data = fs::symlink_metadata(titles.in_folder(&name));
                assert!(data.expect("a file").is_file(), "{name}");
            }
        }
    }
}

#[test]
fn pipes_in_the_way_go_and_are_not_waited_for() {
    for name in WRITTEN {
        let titles = Titles::new();
        fs::create_dir(&titles.folder).expect("a folder");
        titles.pipe(name);
        assert_units(
            in_time(&titles.args("first")),
            &titles.folder,
            &titles.first,
            0,
        );
    }
}

/// What came under a temporary name after the run had looked is neither opened nor removed. The
/// first file that is made holds room on the disk, the third is the second unit.
#[test]
fn what_comes_in_the_way_during_a_run_is_refused() {
    let titles = Titles::new();
    let outside = titles.scratch.file("outside", b"kept");
    for (at, name, link) in [
        (1, "units.txt.tmp", true),
        (3, "unit_001.c.tmp", true),
        (3, "unit_001.c.tmp", false),
    ] {
        let halted = titles.halted("first", "open", at);
        match link {
            true => symlink(&outside, titles.in_folder(name)).expect("a link"),
            false => titles.pipe(name),
        }
        let line = halted.end().failed(2);
        let start = format!("recomp: cannot write {}: ", titles.in_folder(name));
        assert!(line.starts_with(&start), "{line}");
        assert!(
            line.ends_with("; remove what stands there, then run again"),
            "{line}"
        );
        assert_eq!(names(&titles.folder), [name]);
        fs::remove_file(titles.in_folder(name)).expect("it is still there");
    }
    assert_eq!(fs::read(&outside).expect("the file"), b"kept");
}

#[test]
fn folders_in_the_way_are_refused_before_anything_is_touched() {
    for name in [
        "unit_000.c.tmp",
        "units.txt.tmp",
        "unit_007.c.tmp",
        "unit_004.c",
    ] {
        let titles = Titles::new();
        titles.write("second");
        fs::create_dir(titles.in_folder(name)).expect("a folder");
        let line = titles.run("first").failed(2);
        assert_eq!(line, in_the_way(&titles, name));
        fs::remove_dir(titles.in_folder(name)).expect("it is still there");
        titles.has(&titles.second);
    }
}

fn in_the_way(titles: &Titles, name: &str) -> String {
    let path = titles.in_folder(name);
    let advice = "remove what stands there, then run again";
    format!("recomp: cannot write {path}: there is a folder of this name; {advice}")
}

#[test]
fn folders_that_come_in_place_of_units_are_found_before_the_first_renaming() {
    for name in ["unit_001.c", "unit_004.c", "units.txt"] {
        let titles = Titles::new();
        titles.write("second");
        let halted = titles.halted("first", "open", 3);
        let _ = fs::remove_file(titles.in_folder(name));
        fs::create_dir(titles.in_folder(name)).expect("a folder");
        let units = ["unit_000.c", "unit_002.c"];
        let before = units.map(|unit| fs::read(titles.in_folder(unit)).expect("a unit"));
        let line = halted.end().failed(2);
        assert_eq!(line, in_the_way(&titles, name));
        let after = units.map(|unit| fs::read(titles.in_folder(unit)).expect("a unit"));
        assert!(before == after, "{name}");
        assert!(!names(&titles.folder)
            .iter()
            .any(|name| name.ends_with(".tmp")));
    }
}

/// What a folder holds after a run of the second title in one of the first that did not end well.
#[derive(Debug, PartialEq, Eq)]
enum State {
    First,
    Second,
    NoManifest,
}

/// Where there is a manifest, the units are those of one title alone, and `verify` says so.
#[track_caller]
fn state(titles: &Titles) -> State {
    let verified = recomp(&["verify", &titles.folder]);
    if !names(&titles.folder).contains(&"units.txt".into()) {
        let line = verified.failed(2);
        assert!(line.contains("units.txt is missing, so no run "), "{line}");
        return State::NoManifest;
    }
    verified.printed();
    // What reserves room has this name for a moment; the next run removes it.
    let _ = fs::remove_file(titles.in_folder("units.txt.tmp"));
    for (state, title) in [
        (State::First, &titles.first),
        (State::Second, &titles.second),
    ] {
        if has_units(&titles.folder, title, 0) {
            return state;
        }
    }
    panic!("a manifest beside other units: {:?}", names(&titles.folder));
}

/// Runs the second title in a folder of the first, stopped before each such call in turn until a
/// run comes to its end, and gives how each ended with what it left.
fn stopped_at_each_call(titles: &Titles, by: By, call: &str) -> Vec<(Run, State)> {
    let mut ends = vec![];
    for at in 1.. {
        titles.write("first");
        let mut command = stopping(&titles.args("second"), by, call, at);
        let run = Run::of(command.output().expect("the program runs"));
        if run.status == Some(0) {
            titles.has(&titles.second);
            return ends;
        }
        ends.push((run, state(titles)));
        titles.write("second");
        titles.has(&titles.second);
    }
    unreachable!("a run has an end");
}

#[test]
fn a_run_killed_at_any_call_leaves_one_title_or_no_manifest() {
    let titles = Titles::new();
    let ends = stopped_at_each_call(&titles, By::Kill, "any");
    // Room reserved, the manifest removed, three units and the manifest written, four renamings,
    // what the first had beyond.
    assert!(ends.len() > 24, "{}", ends.len());
    for (run, _) in &ends {
        assert_eq!(
            (run.status, run.out.as_str(), run.err.as_str()),
            (None, "", "")
        );
    }
    let states: Vec<_> = ends.into_iter().map(|(_, state)| state).collect();
    for state in [State::First, State::Second, State::NoManifest] {
        assert!(states.contains(&state), "{state:?}");
    }
}

#[test]
fn a_run_that_fails_at_any_call_says_so_and_leaves_one_title_or_no_manifest() {
    let titles = Titles::new();
    let ends = stopped_at_each_call(&titles, By::Fail, "any");
    assert!(ends.len() > 24, "{}", ends.len());
    let mut full = 0;
    for (run, _) in ends {
        let line = run.failed(2);
        let broken = line.contains("Input/output error (os error 5); ");
        assert!(broken || line.contains(FULL), "{line}");
        full += u32::from(!broken);
    }
    assert_eq!(full, 1, "room is reserved once");
}

/// What the system says where a disk has no room.
const FULL: &str = "No space left on device (os error 28); ";

/// Room for all units is reserved before anything of the older run is touched.
#[test]
fn a_disk_too_small_is_said_and_leaves_the_folder_as_it_was() {
    let titles = Titles::new();
    titles.write("first");
    let before = contents(&titles.folder);
    let mut command = stopping(&titles.args("second"), By::Fail, "reserve", 1);
    let line = Run::of(command.output().expect("the program runs")).failed(2);
    assert_eq!(line, too_small(&titles.folder, 4));
    assert!(contents(&titles.folder) == before);
}

/// So many blocks of the disk, 4096 bytes each, are not to be had.
fn too_small(folder: &str, blocks: u64) -> String {
    let bytes = 4096 * blocks;
    let what = format!("cannot write the units to {folder}: it takes {bytes} bytes of the disk");
    format!("recomp: {what}: {FULL}make room, or name another folder with -o")
}

/// A script with the program and these arguments, run where a disk of so many bytes stands at a
/// path; nothing where the system lets nobody make one.
fn on_a_small_disk(path: &str, bytes: u64, script: &str, args: &[String]) -> Option<Run> {
    let mount = format!("mount -t tmpfs -o size={bytes} none '{path}'");
    let inside = |script: &str| {
        let mut command = Command::new("unshare");
        command.args(["--map-root-user", "--mount", "sh", "-c"]);
        command
            .arg(format!("{mount} && {script}"))
            .arg(PROGRAM)
            .args(args);
        Run::of(command.output().expect("unshare runs"))
    };
    (inside("true").status == Some(0)).then(|| inside(script))
}

/// Three units and the manifest take a block of the disk each.
#[test]
fn a_small_disk() {
    let titles = Titles::new();
    fs::create_dir(&titles.folder).expect("a folder");
    let args = titles.args("second");
    for blocks in [3, 4] {
        let script = "\"$0\" \"$@\" && \"$0\" verify \"$4\"; echo $?; ls \"$4\"";
        let run = on_a_small_disk(&titles.folder, 4096 * blocks, script, &args);
        let Some(run) = run else {
            eprintln!("no disk can be made here");
            return;
        };
        if blocks == 3 {
            assert_eq!(run.err, format!("{}\n", too_small(&titles.folder, 4)));
            assert_eq!(run.out, "2\n");
        } else {
            let units = "unit_000.c\nunit_001.c\nunit_002.c\nunits.txt\n";
            assert!(run.out.ends_with(&format!("\n0\n{units}")), "{run:?}");
            assert_eq!(run.err, "");
        }
    }
}

#[test]
fn a_renaming_that_fails_leaves_no_manifest_and_no_temporary_files() {
    let titles = Titles::new();
    titles.write("first");
    let mut command = stopping(&titles.args("second"), By::Fail, "rename", 2);
    let run = Run::of(command.output().expect("the program runs"));
    let line = run.failed(2);
    let start = format!("recomp: cannot write {}: ", titles.in_folder("unit_001.c"));
    assert!(line.starts_with(&start), "{line}");
    assert_eq!(state(&titles), State::NoManifest);
    let units = (0..5).map(|n| format!("unit_{n:03}.c"));
    assert_eq!(names(&titles.folder), units.collect::<Vec<_>>());
}

#[test]
fn files_and_folder_are_synced() {
    let titles = Titles::new();
    let ends = stopped_at_each_call(&titles, By::Fail, "fsync");
    let (folder, file) = (&titles.folder, |name: &str| titles.in_folder(name));
    let synced = [
        // The manifest is gone.
        folder,
        &file("unit_000.c.tmp"),
        &file("unit_001.c.tmp"),
        &file("unit_002.c.tmp"),
        &file("units.txt.tmp"),
        // The units have their names, then the manifest.
        folder,
        folder,
    ];
    assert_eq!(ends.len(), synced.len());
    for ((run, _), path) in ends.into_iter().zip(synced) {
        let line = run.failed(2);
        assert!(
            line.starts_with(&format!("recomp: cannot write {path}: ")),
            "{line}"
        );
    }
}
