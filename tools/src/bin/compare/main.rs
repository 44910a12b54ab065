//! Compares the proved library with plain Rust, or with the original, on generated files: a command
//! for each of its calls.

mod check;
mod exits;
#[path = "../../library.rs"]
mod library;
mod listing;
mod pages;
mod plan;
mod reasons;

use recomp_tools::original::Original;
use recomp_tools::trials;
use std::process::ExitCode;

/// A command by name, with the words that it takes. It answers the number of mismatches, or nothing
/// where its words are not understood.
type Command = (&'static str, &'static str, fn(&[String]) -> Option<u64>);

const COMMANDS: [Command; 6] = [
    ("check", "[FILES] [FIRST_SEED]", check::run),
    ("exits", "[FILES] [FIRST_SEED]", exits::run),
    ("plan", "[FILES] [FIRST_SEED]", plan::run),
    ("listing", "[FILES] [FIRST_SEED]", listing::run),
    ("pages", "[FILES] [FIRST_SEED]", pages::run),
    (
        "reasons",
        "[FILES] [FIRST_SEED] [LARGE_FILES]",
        reasons::run,
    ),
];

/// How many small files, from which seed on, and the original, whose place the environment names.
fn trial_words(words: &[String]) -> Option<(u64, u64, Original)> {
    let number = |n: usize, usual: u64| words.get(n).map_or(Some(usual), |w| w.parse().ok());
    let original = Original::new().map_err(|reason| eprintln!("{reason}"));
    Some((number(0, trials::FILES)?, number(1, 0)?, original.ok()?))
}

fn main() -> ExitCode {
    let args: Vec<String> = std::env::args().skip(1).collect();
    let named = |name: &String| COMMANDS.iter().find(|c| c.0 == name);
    let mismatches = args
        .split_first()
        .and_then(|(name, words)| named(name)?.2(words));
    match mismatches {
        Some(0) => ExitCode::SUCCESS,
        Some(_) => ExitCode::FAILURE,
        None => {
            for (name, words, _) in COMMANDS {
                eprintln!("usage: compare {name} {words}");
            }
            ExitCode::from(2)
        }
    }
}
