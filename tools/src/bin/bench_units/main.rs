//! Times the calls for units on the largest files against the original's emitter, in one run: all
//! units by one call, or single units. The sides take turns, so that a slow spell of the machine
//! falls on both.
//!
//! The original gets decoded blocks, where the library gets the file, checks it and groups its
//! blocks in every call.

mod all;
#[path = "../../library.rs"]
mod library;
mod single;

use recomp_tools::file::File;
use recomp_tools::original::Original;
use std::process::ExitCode;

const KIB: u64 = 1 << 10;
const MIB: u64 = 1 << 20;

const USAGE: &str = "usage: bench-units [all [ROUNDS] | single [ROUNDS] [ROUNDS_OF_ALL]]";

fn print_file(name: &str, file: &File) {
    println!(
        "{name}: {} blocks, {} instructions, {} bytes",
        file.blocks,
        file.instructions,
        file.bytes.len()
    );
}

/// What is asked for: all units in so many rounds, or single ones in so many and all units, one
/// call each, in so many.
enum Asked {
    All(u64),
    Single([u64; 2]),
}

fn asked() -> Option<Asked> {
    let words: Vec<String> = std::env::args().skip(1).collect();
    let number = |n: usize, usual: u64| {
        let number = words.get(n).map_or(Some(usual), |w| w.parse().ok());
        number.filter(|&rounds| rounds > 0)
    };
    match words.first().map(String::as_str) {
        None | Some("all") => Some(Asked::All(number(1, all::ROUNDS)?)),
        Some("single") => {
            let rounds = number(1, single::ROUNDS)?;
            let of_all = number(2, single::ROUNDS_OF_ALL)?;
            Some(Asked::Single([rounds, of_all]))
        }
        Some(_) => None,
    }
}

fn run(asked: Asked) -> Result<(), String> {
    let original = Original::new()?;
    match asked {
        Asked::All(rounds) => all::run(&original, rounds),
        Asked::Single(rounds) => single::run(&original, rounds),
    }
}

fn main() -> ExitCode {
    let Some(asked) = asked() else {
        eprintln!("{USAGE}");
        return ExitCode::from(2);
    };
    match run(asked) {
        Ok(()) => ExitCode::SUCCESS,
        Err(reason) => {
            eprintln!("{reason}");
            ExitCode::FAILURE
        }
    }
}
