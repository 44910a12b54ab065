//! Standard output and standard error that are full, closed, or read by nobody.

mod common;

use common::{lone_shells, names, program, recomp, sample, Run, Scratch, PROGRAM, READING};
use std::fs::{self, File};
use std::os::unix::process::ExitStatusExt;
use std::process::{Command, Stdio};

const PIPE_SIGNAL: i32 = 13;

/// The device that has no room.
fn full() -> Stdio {
    let full = File::options().write(true).open("/dev/full");
    full.expect("the device that is full").into()
}

/// Each command with arguments that go well, `units` with the folder. All of them print.
fn commands(scratch: &Scratch) -> Vec<Vec<String>> {
    let path = sample("generated.blk");
    let done = scratch.join("done");
    recomp(&["units", &path, "-o", &done]).printed();
    let mut commands: Vec<_> = READING
        .map(|command| vec![command.into(), path.clone()])
        .into();
    commands.push(vec!["verify".into(), done]);
    commands.push(vec!["--help".into()]);
    let units = ["units", &path, "-o", &scratch.join("units")].map(String::from);
    commands.push(units.into());
    commands
}

/// The program through a shell that arranges what it reads and writes.
fn redirected(how: &str, args: &[String]) -> Run {
    let mut shell = Command::new("sh");
    shell.args(["-c", &format!("exec \"$0\" \"$@\" {how}"), PROGRAM]);
    Run::of(shell.args(args).output().expect("the shell runs"))
}

#[test]
fn output_that_finds_no_room() {
    let scratch = Scratch::new();
    for args in commands(&scratch) {
        let output = program(&args).stdout(full()).output();
        let line = Run::of(output.expect("the program runs")).failed(2);
        assert!(
            line.starts_with("recomp: cannot write to standard output: "),
            "{line}"
        );
        assert!(
            line.ends_with("; send it where there is room, then run again"),
            "{line}"
        );
    }
}

#[test]
fn output_that_is_closed_is_said_before_anything_is_done() {
    let scratch = Scratch::new();
    for args in commands(&scratch) {
        let line = redirected(">&-", &args).failed(2);
        let advice = "open it, or send it to /dev/null";
        assert_eq!(line, format!("recomp: standard output is closed; {advice}"));
    }
    assert!(!fs::exists(scratch.join("units")).expect("an answer"));
    for args in commands(&scratch) {
        assert_eq!(redirected(">/dev/null", &args).printed(), "");
        assert_eq!(redirected("1<>/dev/null", &args).printed(), "");
    }
}

#[test]
fn output_that_is_open_for_reading_only() {
    let scratch = Scratch::new();
    for args in commands(&scratch) {
        let line = redirected("1</dev/null", &args).failed(2);
        assert!(
            line.starts_with("recomp: cannot write to standard output: Bad file"),
            "{line}"
        );
    }
}

#[test]
fn output_that_nobody_reads_ends_the_run_as_others_are_ended() {
    let scratch = Scratch::new();
    for args in commands(&scratch) {
        let (reader, writer) = std::io::pipe().expect("a pipe");
        drop(reader);
        let output = program(&args).stdout(writer).output();
        let output = output.expect("the program runs");
        assert_eq!(output.status.signal(), Some(PIPE_SIGNAL));
        assert_eq!(Run::of(output).err, "");
    }
    // What was to be written besides stands.
    assert_eq!(names(&scratch.join("units")), ["unit_000.c", "units.txt"]);
    recomp(&["verify", &scratch.join("units")]).printed();
}

#[test]
fn a_reader_that_ends_early_ends_the_run_silently() {
    let scratch = Scratch::new();
    // What is printed is longer than what a pipe holds.
    let path = scratch.file("many.blk", &lone_shells(20_000).bytes);
    let script = "{ \"$0\" \"$1\" \"$2\"; echo $? >\"$3\"; } | head -n 1";
    let status = scratch.join("status");
    for (command, line) in [
        ("listing", "key group exits"),
        ("page", &format!("{:>64}", 1)),
        ("reasons", "08000000 Swi no native form"),
    ] {
        let mut shell = Command::new("sh");
        shell.args(["-c", script, PROGRAM, command, &path, &status]);
        let run = Run::of(shell.output().expect("the shell runs"));
        assert_eq!(run.printed(), format!("{line}\n"));
        assert_eq!(fs::read_to_string(&status).expect("the status"), "141\n");
    }
}

/// Statuses 0, 1 and 2, whatever becomes of the line on standard error.
#[test]
fn errors_that_cannot_be_written_change_no_status() {
    let path = sample("three_blocks.blk");
    let [fine, refused, wrong] = [["check", &path], ["check", "/dev/null"], ["chec", &path]];
    for (args, status) in [(fine, 0), (refused, 1), (wrong, 2)] {
        let args = args.map(String::from);
        for how in [
            "2>/dev/full",
            "2>&-",
            "2</dev/null",
            "2>/dev/full >/dev/null",
        ] {
            assert_eq!(redirected(how, &args).status, Some(status), "{how}");
        }
        let (reader, writer) = std::io::pipe().expect("a pipe");
        drop(reader);
        let ended = program(&args).stdout(Stdio::null()).stderr(writer).status();
        assert_eq!(ended.expect("the program runs").code(), Some(status));
    }
}

#[test]
fn output_and_errors_that_find_no_room() {
    let path = sample("three_blocks.blk");
    let mut command = program(&["listing", &path]);
    let ended = command.stdout(full()).stderr(full()).status();
    assert_eq!(ended.expect("the program runs").code(), Some(2));
}
