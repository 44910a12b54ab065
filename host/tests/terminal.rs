//! The progress line, on a terminal only.

mod common;

use common::{lone_blocks, program, Scratch};
use std::ffi::{c_int, c_void};
use std::fs::File;
use std::io::Read;
use std::os::fd::{FromRawFd, OwnedFd};
use std::ptr::{null, null_mut};

extern "C" {
    /// Of the C library: both ends of a new terminal.
    fn openpty(
        master: *mut c_int,
        slave: *mut c_int,
        name: *mut u8,
        settings: *const c_void,
        size: *const c_void,
    ) -> c_int;
}

/// Our end and the program's end of a terminal.
fn terminal() -> (File, OwnedFd) {
    let [mut ours, mut theirs] = [-1; 2];
    // SAFETY: both numbers outlive the call, and the other arguments may be null.
    let failed = unsafe { openpty(&mut ours, &mut theirs, null_mut(), null(), null()) };
    assert_eq!(failed, 0, "a terminal");
    // SAFETY: the call opened both, and nothing else owns them.
    unsafe { (File::from_raw_fd(ours), OwnedFd::from_raw_fd(theirs)) }
}

/// All that was shown. Once the other end is closed, reading fails.
fn shown(mut terminal: File) -> String {
    let mut bytes = vec![];
    let _ = terminal.read_to_end(&mut bytes);
    String::from_utf8(bytes).expect("progress is UTF-8")
}

#[test]
fn progress_is_shown_and_taken_away() {
    let scratch = Scratch::new();
    let path = scratch.file("two.blk", &lone_blocks(2).bytes);
    let (ours, theirs) = terminal();
    let folder = scratch.join("units");
    let mut command = program(&["units", &path, "-o", &folder, "--unit-size", "0"]);
    let output = command.stderr(theirs).output().expect("the program runs");
    // The command holds the other end of the terminal.
    drop(command);
    let totals = String::from_utf8(output.stdout).expect("output is UTF-8");
    assert!(totals.starts_with("units 3, blocks 2, bytes "), "{totals}");
    let shown = shown(ours);
    assert!(
        shown.starts_with("\r\x1b[Kunits 0 of 3, bytes 0 of "),
        "{shown:?}"
    );
    assert!(shown.ends_with("\r\x1b[K"), "{shown:?}");
}
