//! `compare exits`: the exits of blocks of generated files against the original's.

use crate::{library, trial_words};
use recomp_tools::damage::damaged_copy;
use recomp_tools::model::{exit_numbers, ExitNumbers};
use recomp_tools::original::Original;
use recomp_tools::rng::Rng;
use recomp_tools::trials::{self, Trial};

/// Blocks that are asked for in a file with more: each call checks the whole file.
const ASKED: usize = 100;

#[derive(Default)]
struct Tally {
    files: u64,
    calls: u64,
    mismatches: u64,
}

impl Tally {
    fn call(&mut self, trial: &Trial, file: &[u8], block: u64, expected: ExitNumbers) {
        let answer = library::exits(file, block);
        self.calls += 1;
        if answer != expected {
            self.mismatches += 1;
            println!("block {block} of {trial:?}: library {answer:?}, expected {expected:?}");
        }
    }

    fn compare(&mut self, trial: &Trial, original: &Original) {
        let file = trial.file();
        let bytes = &file.bytes[..];
        self.files += 1;
        let expected = original.exits(bytes);
        assert_eq!(expected.len(), file.blocks, "{trial:?}");
        for i in asked(file.blocks) {
            self.call(trial, bytes, i as u64, expected[i][..].into());
        }
        let blocks = file.blocks as u64;
        for none in [blocks, blocks + 1, 1 << 32, u64::MAX] {
            self.call(trial, bytes, none, exit_numbers(bytes, none));
        }
        let copy = damaged_copy(&file);
        for block in [0, blocks] {
            self.call(trial, &copy, block, exit_numbers(&copy, block));
        }
    }
}

/// All blocks of a small file; of a larger one the first, the last and others by chance.
fn asked(blocks: usize) -> Vec<usize> {
    if blocks <= ASKED {
        return (0..blocks).collect();
    }
    let rng = &mut Rng::new(blocks as u64);
    let others = (2..ASKED).map(|_| rng.below(blocks));
    [0, blocks - 1].into_iter().chain(others).collect()
}

pub fn run(words: &[String]) -> Option<u64> {
    let (files, first, original) = trial_words(words)?;
    let mut tally = Tally::default();
    for trial in trials::small(files, first).chain(trials::large(first)) {
        tally.compare(&trial, &original);
    }
    println!("{} calls", tally.calls);
    println!(
        "exits: {} files, {} mismatches",
        tally.files, tally.mismatches
    );
    Some(tally.mismatches)
}
