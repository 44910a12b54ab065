//! Standard output and standard error. An answer that is lost is a failure; a line that cannot be
//! put on standard error is not, since nobody could be told.

use crate::failure::Failure;
use std::ffi::c_int;
use std::fs::File;
use std::io::{self, ErrorKind, Write};
use std::os::fd::AsFd;
use std::process::ExitCode;
use std::sync::atomic::{AtomicBool, Ordering};

/// Whether standard output was closed when the program started.
static CLOSED: AtomicBool = AtomicBool::new(false);

/// Rust opens /dev/null in place of a closed standard output before `main`, so this looks earlier.
#[used]
#[link_section = ".init_array"]
static LOOK: extern "C" fn() = look;

extern "C" fn look() {
    const STANDARD_OUTPUT: c_int = 1;
    const GET_FLAGS: c_int = 1;
    // SAFETY: the call takes numbers alone, and fails where nothing is open under the first.
    let flags = unsafe { fcntl(STANDARD_OUTPUT, GET_FLAGS) };
    CLOSED.store(flags < 0, Ordering::Relaxed);
}

extern "C" {
    // Of the C library.
    fn fcntl(file: c_int, command: c_int, ...) -> c_int;
    fn signal(number: c_int, action: usize) -> usize;
    fn raise(number: c_int) -> c_int;
}

/// Fails where there is no standard output, before anything is done whose answer would be lost.
pub fn ready() -> Result<(), Failure> {
    if CLOSED.load(Ordering::Relaxed) {
        let what = "standard output is closed; open it, or send it to /dev/null";
        return Err(Failure::error(what));
    }
    Ok(())
}

/// Prints an answer.
pub fn print(text: &[u8]) -> Result<(), Failure> {
    write(text).map_err(|error| match error.kind() {
        ErrorKind::BrokenPipe => Failure::NobodyReads,
        _ => {
            let advice = "send it where there is room, then run again";
            Failure::error(format!(
                "cannot write to standard output: {error}; {advice}"
            ))
        }
    })
}

/// Writes through a file of its own: Rust's standard output takes what cannot be written for
/// written where it was opened for reading only.
fn write(text: &[u8]) -> io::Result<()> {
    File::from(io::stdout().as_fd().try_clone_to_owned()?).write_all(text)
}

/// Puts a line on standard error.
pub fn say(line: &str) {
    let _ = io::stderr().write_all(format!("{line}\n").as_bytes());
}

/// Ends the program after a failure, with its line on standard error.
pub fn end(failure: Failure) -> ExitCode {
    match failure {
        Failure::Said { status, line } => {
            say(&line);
            ExitCode::from(status)
        }
        Failure::NobodyReads => end_by_signal(),
    }
}

/// Ends as a program does that writes for nobody: by the signal for it, which Rust ignores.
fn end_by_signal() -> ExitCode {
    const PIPE: c_int = 13;
    const DEFAULT: usize = 0;
    // SAFETY: the calls take numbers alone, and no action of this program is replaced.
    unsafe {
        signal(PIPE, DEFAULT);
        raise(PIPE);
    }
    // Reached where the signal is blocked: the status that a shell gives it.
    ExitCode::from(128 + PIPE as u8)
}
