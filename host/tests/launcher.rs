//! The launcher at the repository's root: what it proves and builds and when, and what it hands on.

mod common;

use common::repository::{finish, Repository, CRATES};
use common::{lone_blocks, names, root, sample, Run};
use std::fs::{self, File};
use std::io::Read;
use std::os::unix::fs::symlink;
use std::os::unix::process::CommandExt;
use std::path::Path;
use std::process::{Child, Stdio};
use std::time::{Duration, Instant};

/// What the launcher says first where no archive is kept.
const PROVING: &str = "\
recomp: lib/x86_64-linux/librecomp.a is missing, or its text is; \
    proving the library, which takes minutes where it was not proved before
";

/// What it says when it proves.
const PROVED: &str = "\
recomp: proved 2 of 3: middle, 0 min
recomp: proved 3 of 3: recomp, 0 min
";

#[track_caller]
fn assert_run(run: Run, status: i32, out: &str, err: &str) {
    let [out, err] = [out, err].map(String::from);
    let status = Some(status);
    assert_eq!(run, Run { status, out, err });
}

const VERSION: &str = "recomp 0.1.0\n";

#[test]
fn what_is_missing_is_proved_and_built_once() {
    let repository = Repository::new();
    let said = format!("{PROVING}{PROVED}what cargo prints\n");
    assert_run(repository.run(&["--version"]), 0, VERSION, &said);
    assert_eq!(repository.calls(), repository.both_calls());
    for tool in ["rt", "cargo", "cc"] {
        repository.without(tool);
    }
    assert_run(repository.run(&["--version"]), 0, VERSION, "");
    assert_eq!(
        names(repository.path("host/target").to_str().expect("UTF-8")),
        ["librecomp.a", "lock", "recomp", "release"]
    );
}

#[test]
fn what_changed_is_proved_and_built_again() {
    let repository = Repository::new();
    repository.run(&["--version"]).status.expect("a status");
    repository.calls();
    // Files that are written, or removed.
    let changes = [
        ("crates/base/src/lib.rt", Some("")),
        ("crates/base/src/new.rt", Some("")),
        ("crates/base/src/new.rt", None),
        ("crates.txt", Some(CRATES)),
        ("lib/link.rs", Some("")),
        ("host/src/main.rs", Some("")),
        ("host/build.rs", Some("")),
        ("host/Cargo.toml", Some("")),
        ("host/Cargo.lock", Some("")),
        ("host/target/recomp", None),
    ];
    for (name, text) in changes {
        assert_eq!(repository.run(&["--version"]).printed(), VERSION);
        assert!(repository.calls().is_empty(), "{name}");
        match text {
            Some(text) => repository.put(name, text),
            None => fs::remove_file(repository.path(name)).expect("a file"),
        }
        assert_eq!(repository.run(&["--version"]).out, VERSION);
        assert_eq!(repository.calls(), repository.both_calls(), "{name}");
    }
}

#[test]
fn what_changes_while_it_is_proved_is_seen_by_the_next_run() {
    let repository = Repository::new();
    let mut command = repository.launcher(&["--version"]);
    command.env("WHILE_PROVING", "touch crates/base/src/lib.rt");
    assert_eq!(finish(&mut command).out, VERSION);
    repository.calls();
    repository.run(&["--version"]);
    assert_eq!(repository.calls(), repository.both_calls());
    assert_eq!(repository.run(&["--version"]).printed(), VERSION);
}

#[test]
fn a_program_that_is_missing_is_named_in_one_line() {
    for (tool, line) in [
        (
            "rt",
            "lib/x86_64-linux/librecomp.a is missing, or its text is; rt is not on the path; \
            install the Rattle kit and put its folder bin there, then run again",
        ),
        (
            "cargo",
            "cargo is not on the path; install Rust 1.89 or later (README has a way with cc \
            alone), then run again",
        ),
        (
            "cc",
            "cc is not on the path; install a C compiler, as gcc, then run again",
        ),
        (
            "sha256sum",
            "sha256sum is not on the path; install coreutils, then run again",
        ),
    ] {
        let repository = Repository::new();
        repository.without(tool);
        let said = repository.run(&["--version"]).failed(2);
        assert_eq!(said, format!("recomp: {line}"));
        assert!(repository.calls().is_empty());
    }
}

#[test]
fn a_folder_that_cannot_be_written_is_named_in_one_line() {
    let repository = Repository::new();
    // A file in the place of the folder: root may write to a folder of any mode.
    repository.put("host/target", "");
    let line = repository.run(&["--version"]).failed(2);
    let heading = "In a folder that cannot be written";
    assert_eq!(
        line,
        format!("recomp: host/target cannot be written; see README, \"{heading}\"")
    );
    let readme = fs::read_to_string(root().join("README.md")).expect("the README");
    assert!(readme.contains(&format!("\n**{heading}** ")));
    assert!(repository.calls().is_empty());
}

#[test]
fn a_proof_that_fails_is_shown_and_nothing_is_built() {
    let repository = Repository::new();
    let fails = "echo 'error: does not hold' >&2; \
        echo 'rt: the library middle did not build, so nothing above it was checked'; exit 1";
    for _ in 0..2 {
        let mut command = repository.launcher(&["--version"]);
        command.env("WHILE_PROVING", fails);
        let run = finish(&mut command);
        let shown = "rt: chose --jobs 2 for middle\nfn middle::same: proved\n\
            error: does not hold\n\
            rt: the library middle did not build, so nothing above it was checked\n\
            recomp: the library is not proved; mend what rt says above, then run again\n";
        assert_run(run, 2, "", &format!("{PROVING}{shown}"));
        assert_eq!(repository.calls(), repository.both_calls()[..1]);
    }
    assert_eq!(repository.run(&["--version"]).out, VERSION);
}

#[test]
fn a_build_that_fails_leaves_no_program() {
    let repository = Repository::new();
    for _ in 0..2 {
        let mut command = repository.launcher(&["--version"]);
        command.env("WHILE_BUILDING", "exit 101");
        let run = finish(&mut command);
        let line = "recomp: the program is not built; mend what cargo says above, then run again\n";
        let said = format!("{PROVING}{PROVED}what cargo prints\n{line}");
        assert_run(run, 2, "", &said);
        assert_eq!(repository.calls(), repository.both_calls());
    }
    assert_eq!(repository.run(&["--version"]).out, VERSION);
}

#[test]
fn a_launcher_that_is_ended_leaves_nothing_behind() {
    let repository = Repository::new();
    let mut command = repository.launcher(&["--version"]);
    // The signal goes to the launcher and all that it started, as from a terminal.
    command
        .process_group(0)
        .env("WHILE_PROVING", "kill -TERM 0");
    let run = finish(&mut command);
    assert_eq!((run.status, run.out.as_str()), (None, ""));
    let folder = repository.path("host/target");
    let start = Instant::now();
    while names(folder.to_str().expect("UTF-8")) != ["lock"] {
        assert!(start.elapsed() < Duration::from_secs(60), "all is removed");
        std::thread::sleep(Duration::from_millis(5));
    }
    assert_eq!(repository.run(&["--version"]).out, VERSION);
}

/// What the kit of a first launcher does: it takes the library as it is now, and waits, for a minute
/// at most, before it writes it.
const WAITS: &str = r#"
    cp "$ARCHIVE" old
    ARCHIVE=old tried=0
    echo >began
    while [ ! -e go ] && [ "$tried" -lt 3000 ]; do
        tried=$((tried + 1))
        sleep 0.02
    done
"#;

/// Starts a launcher, and gives it back once its kit waits.
fn first(repository: &Repository) -> Child {
    let mut command = repository.launcher(&["--version"]);
    command.env("WHILE_PROVING", WAITS);
    command.stdout(Stdio::piped()).stderr(Stdio::null());
    let child = command.spawn().expect("it starts");
    let start = Instant::now();
    while !repository.path("began").exists() {
        assert!(start.elapsed() < Duration::from_secs(60), "it begins");
        std::thread::sleep(Duration::from_millis(2));
    }
    child
}

/// Starts a second launcher, and gives it back once it waits for the first, which may then go on.
fn second(repository: &Repository) -> Child {
    let mut command = repository.launcher(&["--version"]);
    command.stdout(Stdio::piped()).stderr(Stdio::piped());
    let mut child = command.spawn().expect("it starts");
    let line = "recomp: another launcher proves or builds in this folder; waiting for it\n";
    let mut said = vec![0; line.len()];
    let errors = child.stderr.as_mut().expect("a pipe");
    errors.read_exact(&mut said).expect("a line");
    assert_eq!(String::from_utf8_lossy(&said), line);
    repository.put("go", "");
    child
}

fn ended(child: Child) -> Run {
    Run::of(child.wait_with_output().expect("it ends"))
}

#[test]
fn a_second_launcher_waits_for_the_first_and_runs_what_it_built() {
    let repository = Repository::new();
    let first = first(&repository);
    let second = second(&repository);
    assert_eq!(ended(first).out, VERSION);
    assert_eq!(ended(second).printed(), VERSION);
    assert_eq!(repository.calls(), repository.both_calls());
}

#[test]
fn where_nothing_can_be_locked_it_is_built_all_the_same() {
    let repository = Repository::new();
    repository.without("flock");
    let run = repository.run(&["--version"]);
    let line =
        "recomp: host/target cannot be locked (flock): start no other launcher here meanwhile\n";
    let said = format!("{line}{PROVING}{PROVED}what cargo prints\n");
    assert_run(run, 0, VERSION, &said);
}

#[test]
fn a_second_launcher_gets_nothing_of_what_was_before_a_change() {
    let repository = Repository::new();
    let first = first(&repository);
    repository.put("crates/base/src/lib.rt", "changed");
    repository.put("archive", "another library");
    let second = second(&repository);
    assert_eq!(ended(first).out, VERSION);
    assert_eq!(ended(second).out, VERSION);
    let [proved, linked] = &repository.both_calls()[..] else {
        panic!("two calls")
    };
    let calls = [proved, linked, proved, "cargo links another library"];
    assert_eq!(repository.calls(), calls);
    assert_eq!(repository.run(&["--version"]).printed(), VERSION);
}

#[test]
fn standard_input_arguments_and_status_are_handed_through() {
    let repository = Repository::new();
    let file = lone_blocks(2).bytes;
    let path = repository.0.file("two.blk", &file);
    // The first run proves and builds, and standard input is there after that.
    for _ in 0..2 {
        let mut command = repository.launcher(&["check", "-"]);
        command.stdin(File::open(&path).expect("the file"));
        let run = finish(&mut command);
        assert_eq!(
            (run.status, run.out.as_str()),
            (Some(0), "accepted: blocks 2, instructions 2\n")
        );
    }
    assert!(repository
        .run(&["check", "/dev/null"])
        .failed(1)
        .starts_with("refused 1 at 0: "));
    let line = repository.run(&["check", "a  b*\n", ""]).failed(2);
    assert_eq!(
        line,
        "recomp: check:  is one argument too many; run recomp check --help"
    );
    let line = repository.run(&["", "a b"]).failed(2);
    assert_eq!(line, "recomp:  is no command; run recomp --help");
}

#[test]
fn any_folder_will_do_and_so_does_a_link() {
    let repository = Repository::new();
    let link = repository.path("bin").join("elsewhere");
    symlink(repository.path("recomp"), &link).expect("a link");
    let sample = sample("three_blocks.blk");
    fs::copy(sample, repository.path("crates/three.blk")).expect("the sample");
    repository.run(&["--version"]);
    let own = repository.path("recomp");
    for (launcher, folder, file) in [
        (own.as_path(), "crates", "three.blk"),
        (Path::new("../recomp"), "crates", "three.blk"),
        (Path::new("./recomp"), ".", "crates/three.blk"),
        (link.as_path(), "host", "../crates/three.blk"),
        (Path::new("elsewhere"), "crates/base", "../three.blk"),
    ] {
        let mut command = repository.command(launcher, &["check", file]);
        command.current_dir(repository.path(folder));
        let run = finish(&mut command);
        assert!(run.printed().starts_with("accepted: blocks 3, "));
    }
}

/// The number of crates in the last line that counts them; what cargo says comes after it.
fn counted(run: &Run) -> Option<usize> {
    let mut lines = run.err.lines().rev();
    let rest = lines.find_map(|line| line.strip_prefix("recomp: proved "))?;
    rest.split(' ').next()?.parse().ok()
}

/// With the real cargo and this package: what is built is the program.
#[test]
fn the_program_is_built_by_cargo() {
    let repository = Repository::real();
    let folder = repository.0.join("units");
    let mut command = repository.launcher(&["units", "samples/count_down.blk", "-o", &folder]);
    repository.with_all(&mut command);
    let run = finish(command.current_dir(repository.0.path()));
    assert_eq!(run.out, "units 1, blocks 3, bytes 3752\n", "{}", run.err);
    // Programs and replays of crates.txt are not needed.
    let listed = fs::read_to_string(root().join("crates.txt")).expect("the list");
    let listed = listed.lines().filter(|line| line.contains(": ")).count();
    let counted = counted(&run).expect("a number of crates");
    assert!((25..listed).contains(&counted), "{counted} of {listed}");
    adds_little(&repository);
}

/// The least time of many runs with the launcher is under 50 ms above that of the program alone.
fn adds_little(repository: &Repository) {
    let least = |path: &Path| {
        let run = |_| {
            let start = Instant::now();
            let run = repository.command(path, &["--version"]).output();
            assert_eq!(Run::of(run.expect("it runs")).printed(), VERSION);
            start.elapsed()
        };
        (0..30).map(run).min().expect("a time")
    };
    let [launcher, program] =
        ["recomp", "host/target/recomp"].map(|name| least(&repository.path(name)));
    let added = launcher.saturating_sub(program);
    assert!(added < Duration::from_millis(50), "{added:?}");
}
