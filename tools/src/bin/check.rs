//! Has the proved library check the block file at the path given, and prints the answer.

#[path = "../library.rs"]
mod library;

use std::process::ExitCode;

fn main() -> ExitCode {
    let Some(path) = std::env::args().nth(1) else {
        eprintln!("usage: check FILE");
        return ExitCode::from(2);
    };
    let file = match std::fs::read(&path) {
        Ok(file) => file,
        Err(error) => {
            eprintln!("{path}: {error}");
            return ExitCode::from(2);
        }
    };
    let answer = library::check(&file);
    if answer.number == 0 {
        println!(
            "accepted: blocks {}, instructions {}",
            answer.blocks, answer.instructions
        );
        ExitCode::SUCCESS
    } else {
        println!("refused {} at {}", answer.number, answer.at);
        ExitCode::FAILURE
    }
}
