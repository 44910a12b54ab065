//! Runs one command of `recomp`, and prints one line on standard error if it fails.

use recomp_host::{args, commands, output};
use std::process::ExitCode;

fn main() -> ExitCode {
    let done = args::parse(std::env::args_os().skip(1)).and_then(commands::run);
    match done {
        Ok(()) => ExitCode::SUCCESS,
        Err(failure) => output::end(failure),
    }
}
