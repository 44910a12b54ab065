//! `compare check`: answers of the check for generated files and damaged copies of them.

use crate::library;
use recomp_tools::check::{check, Numbers};
use recomp_tools::damage::damaged;
use recomp_tools::file::File;
use recomp_tools::generate::{file, Params};
use recomp_tools::rng::Rng;

/// Small files that are generated unless told otherwise.
const FILES: u64 = 50_000;

/// Damaged copies of every file.
const COPIES: u64 = 3;

/// A shape of file, with the number of seeds that it is tried with.
type Tried = (fn(u64) -> Params, u64);

const LARGE: [Tried; 4] = [
    (Params::components, 40),
    (Params::long, 20),
    (Params::chain, 4),
    (Params::largest, 2),
];

#[derive(Default)]
struct Tally {
    /// Files by what plain Rust answers: accepted, then refusals 1 to 7.
    answers: [u64; 8],
    mismatches: u64,
}

impl Tally {
    fn compare(&mut self, params: &Params, copy: u64, bytes: &[u8]) {
        let rust = Numbers::from(check(bytes));
        let library = library::check(bytes);
        self.answers[rust.number as usize] += 1;
        if library != rust {
            self.mismatches += 1;
            println!("copy {copy} of {params:?}: library {library:?}, rust {rust:?}");
        }
    }

    fn print(&self) {
        for (number, count) in self.answers.iter().enumerate() {
            match number {
                0 => println!("accepted  {count:7}"),
                _ => println!("refused {number} {count:7}"),
            }
        }
        let files: u64 = self.answers.iter().sum();
        println!("{files} files, {} mismatches", self.mismatches);
    }
}

/// Compares small files from a first seed on, then larger ones, each with damaged copies; copy 0 is
/// the file itself.
pub fn run(words: &[String]) -> Option<u64> {
    let number = |n: usize, usual: u64| words.get(n).map_or(Some(usual), |w| w.parse().ok());
    let (files, first) = (number(0, FILES)?, number(1, 0)?);
    let mut tally = Tally::default();
    for seed in first..first + files {
        compare_copies(&mut tally, &Params::small(seed));
    }
    for (shape, seeds) in LARGE {
        for seed in first..first + seeds {
            compare_copies(&mut tally, &shape(seed));
        }
    }
    tally.print();
    Some(tally.mismatches)
}

fn compare_copies(tally: &mut Tally, params: &Params) {
    let file = file(params);
    tally.compare(params, 0, &file.bytes);
    for copy in 1..=COPIES {
        tally.compare(params, copy, &damaged_copy(&file, params.seed, copy));
    }
}

/// Copy `copy` of the file: made again by the same seed.
fn damaged_copy(file: &File, seed: u64, copy: u64) -> Vec<u8> {
    let rng = &mut Rng::new(seed.wrapping_mul(COPIES + 1).wrapping_add(copy));
    let faults = rng.between(1, 4);
    damaged(rng, file, faults)
}
