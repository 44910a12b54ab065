//! Holds the model of exits and plan against the original Rust on generated files.

use recomp_tools::check::check;
use recomp_tools::model;
use recomp_tools::original::Original;
use recomp_tools::trials::{self, Trial};
use std::process::ExitCode;

#[derive(Default)]
struct Tally {
    files: u64,
    blocks: usize,
    mismatches: u64,
}

impl Tally {
    fn compare(&mut self, trial: Trial, original: &Original) {
        let file = trial.file();
        assert!(check(&file.bytes).is_ok(), "refused: {trial:?}");
        self.files += 1;
        self.blocks += file.blocks;
        if model::plan(&file.bytes) != original.plan(&file.bytes) {
            self.mismatches += 1;
            println!("plan of {trial:?}");
        }
        if model::exits(&file.bytes) != original.exits(&file.bytes) {
            self.mismatches += 1;
            println!("exits of {trial:?}");
        }
    }
}

fn main() -> ExitCode {
    let words: Vec<String> = std::env::args().skip(1).collect();
    let number = |n: usize, usual: u64| words.get(n).map_or(Some(usual), |w| w.parse().ok());
    let (Some(files), Some(first)) = (number(0, trials::FILES), number(1, 0)) else {
        eprintln!("usage: model [FILES] [FIRST_SEED]");
        return ExitCode::from(2);
    };
    let original = match Original::new() {
        Ok(original) => original,
        Err(reason) => {
            eprintln!("{reason}");
            return ExitCode::from(2);
        }
    };
    let mut tally = Tally::default();
    for trial in trials::small(files, first).chain(trials::large(first)) {
        tally.compare(trial, &original);
    }
    println!(
        "model: {} files, {} blocks, {} mismatches",
        tally.files, tally.blocks, tally.mismatches
    );
    if tally.mismatches == 0 {
        ExitCode::SUCCESS
    } else {
        ExitCode::FAILURE
    }
}
