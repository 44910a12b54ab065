//! Compares the units of generated files with the original's, measured and written one by one and
//! many at once, and every byte and number lent. It is a program of its own, so that the others
//! link without the calls for units.

mod calls;
mod fronts;
#[path = "../../library.rs"]
mod library;
mod single;
mod tally;

use calls::{Sort, Tried};
use recomp_tools::check::check;
use recomp_tools::damage::damaged_copy;
use recomp_tools::file::File;
use recomp_tools::generate::forms;
use recomp_tools::original::units::Emitter;
use recomp_tools::original::{Original, Program};
use recomp_tools::trials::{self, Trial};
use std::process::ExitCode;
use tally::Tally;

/// How many files there are of each sort, and the first seed.
struct Words {
    small: u64,
    first: u64,
    limits: u64,
    largest: u64,
}

const USUAL: Words = Words {
    small: 20_000,
    first: 0,
    limits: 200,
    largest: 5,
};

/// Turns of the files with every kind and form.
const TURNS: usize = 8;

/// Small files that one process of the original gets.
const BATCH: usize = 200;

/// One in so many small files is also given to the original's own program, to see that both are fed
/// alike.
const ORACLE_STEP: usize = 100;

fn words() -> Option<Words> {
    let words: Vec<String> = std::env::args().skip(1).collect();
    let number = |n: usize, usual: u64| words.get(n).map_or(Some(usual), |w| w.parse().ok());
    let words = Words {
        small: number(0, USUAL.small)?,
        first: number(1, USUAL.first)?,
        limits: number(2, USUAL.limits)?,
        largest: number(3, USUAL.largest)?,
    };
    Some(words)
}

/// Both programs of the original, and what came of the calls.
struct Comparison {
    original: Original,
    program: Program,
    tally: Tally,
}

impl Comparison {
    fn new() -> Result<Comparison, String> {
        let original = Original::new()?;
        let program = original.build("units")?;
        Ok(Comparison {
            original,
            program,
            tally: Tally::default(),
        })
    }

    fn run(&mut self, words: &Words) {
        let forms = forms::all(TURNS).map(Trial::Forms);
        let small = forms.chain(trials::small(words.small, words.first));
        let small: Vec<Trial> = small.collect();
        for batch in small.chunks(BATCH) {
            self.batch(batch, Sort::Small);
        }
        for trial in small.iter().step_by(ORACLE_STEP) {
            self.hold_against_oracle(trial);
        }
        for trial in trials::limits(words.limits, words.first) {
            self.batch(&[trial], Sort::Limit);
        }
        for (_, trial) in trials::timed().into_iter().take(words.largest as usize) {
            self.batch(&[trial], Sort::Largest);
        }
    }

    /// Some files and a damaged copy of each, by one process of the original.
    fn batch(&mut self, trials: &[Trial], sort: Sort) {
        let files: Vec<File> = trials.iter().map(Trial::file).collect();
        let copies: Vec<Vec<u8>> = files.iter().map(damaged_copy).collect();
        let mut taken: Vec<&[u8]> = files.iter().map(|file| &file.bytes[..]).collect();
        // The original takes accepted files only: they follow the others in their order.
        let accepted = |copy: &&Vec<u8>| check(copy).is_ok();
        taken.extend(copies.iter().filter(accepted).map(|copy| &copy[..]));
        let mut emitter = Emitter::start(&self.program, &taken);
        let mut places = files.len()..;
        for (at, trial) in trials.iter().enumerate() {
            let tried = |bytes| Tried { trial, sort, bytes };
            let (file, copy) = (&files[at], &copies[at]);
            self.tally.count_stored_bases(file);
            self.tally.compare(tried(&file.bytes), &mut emitter, at);
            let place = accepted(&copy).then(|| places.next()).flatten();
            self.tally.compare_damaged(tried(copy), &mut emitter, place);
        }
    }

    fn hold_against_oracle(&self, trial: &Trial) {
        let file = trial.file();
        let mut emitter = Emitter::start(&self.program, &[&file.bytes]);
        for size in [0, u64::MAX] {
            let same = emitter.units(0, size) == self.original.units(&file.bytes, size);
            assert!(
                same,
                "the original's programs differ at {size} on {trial:?}"
            );
        }
    }
}

fn main() -> ExitCode {
    let Some(words) = words() else {
        eprintln!("usage: compare-units [FILES] [FIRST_SEED] [FILES_AT_LIMIT] [LARGEST_FILES]");
        return ExitCode::from(2);
    };
    let mut comparison = match Comparison::new() {
        Ok(comparison) => comparison,
        Err(reason) => {
            eprintln!("{reason}");
            return ExitCode::from(2);
        }
    };
    comparison.run(&words);
    comparison.tally.print();
    match comparison.tally.mismatches {
        0 => ExitCode::SUCCESS,
        _ => ExitCode::FAILURE,
    }
}
