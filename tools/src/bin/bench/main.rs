//! Times the proved library against plain Rust, the original or another of its calls, in one run: a
//! command for each of its calls.

mod check;
#[path = "../../library.rs"]
mod library;
mod pages;
mod plan;
mod reasons;

use std::process::ExitCode;

const WARM_UP: usize = 3;
const ROUNDS: usize = 31;

fn main() -> ExitCode {
    let words: Vec<String> = std::env::args().skip(1).collect();
    let words: Vec<&str> = words.iter().map(String::as_str).collect();
    let timed = match words[..] {
        [] | ["check"] => {
            check::run();
            Ok(())
        }
        ["plan"] => plan::run(),
        ["pages"] => pages::run(),
        ["reasons"] => reasons::run(),
        _ => {
            eprintln!("usage: bench [check | plan | pages | reasons]");
            return ExitCode::from(2);
        }
    };
    if let Err(reason) = timed {
        eprintln!("{reason}");
        return ExitCode::FAILURE;
    }
    ExitCode::SUCCESS
}
