//! Compiles the units of generated files with three compilers, links them with a stub runtime and
//! runs the block table: its keys must be the file's, and what comes of its functions must not
//! depend on the compiler. Stores of several registers must store the words that the manual says.

mod compilers;
#[cfg(feature = "library")]
#[path = "../../library.rs"]
mod library;
mod source;

use compilers::{Directory, COMPILERS};
use recomp_tools::generate::{closings, forms, Params};
use recomp_tools::model;
use recomp_tools::stores;
use recomp_tools::trials::{self, Trial};
use source::Source;
use std::process::ExitCode;

/// Small files unless told otherwise, and how many at the limit of a part.
const FILES: u64 = 60;
const LIMITS: u64 = 3;

/// One in so many of the closings is taken.
const CLOSINGS_STEP: usize = 29;

/// Sizes that files take turns at.
const SIZES: [u64; 3] = [u64::MAX, 0, 1 << 14];

#[derive(Default)]
struct Tally {
    files: u64,
    units: usize,
    bytes: usize,
    programs: u64,
    stores: usize,
    failures: u64,
}

impl Tally {
    fn compile(&mut self, trial: &Trial, size: u64, source: &Source, directory: &Directory) {
        let file = trial.file();
        let units = source.units(&file.bytes, size);
        let expected: Vec<u32> = model::blocks(&file.bytes).iter().map(|b| b.key()).collect();
        self.files += 1;
        self.units += units.len();
        self.bytes += units.iter().map(|unit| unit.text.len()).sum::<usize>();
        let mut digests: Option<Vec<u64>> = None;
        for compiler in &COMPILERS {
            self.programs += 1;
            let rows = match directory.run(compiler, &units) {
                Ok(rows) => rows,
                Err(reason) => {
                    self.fail(trial, size, &format!("{}: {reason}", compiler.name));
                    continue;
                }
            };
            let (keys, own): (Vec<u32>, Vec<u64>) = rows.into_iter().unzip();
            if keys != expected {
                self.fail(trial, size, &format!("{}: other keys", compiler.name));
            }
            let first = digests.get_or_insert_with(|| own.clone());
            if let Some(n) = (0..own.len()).find(|&n| first.get(n) != Some(&own[n])) {
                let reason = format!("{}: another digest of block {n}", compiler.name);
                self.fail(trial, size, &reason);
            }
        }
    }

    /// Stores of several registers, held against the manual's word by word.
    fn compile_stores(&mut self, source: &Source, directory: &Directory) {
        let all = stores::all();
        let (file, expected) = stores::file(&all);
        let units = source.units(&file.bytes, u64::MAX);
        self.stores = all.len();
        for compiler in &COMPILERS {
            self.programs += 1;
            let reason = match directory.printed(compiler, "stores.c", &units) {
                Ok(printed) if printed == expected => continue,
                Ok(printed) => other_stores(&expected, &printed),
                Err(reason) => reason,
            };
            self.failures += 1;
            println!("stores, {}: {reason}", compiler.name);
        }
    }

    fn fail(&mut self, trial: &Trial, size: u64, reason: &str) {
        self.failures += 1;
        println!("{trial:?} at {size}: {reason}");
    }
}

/// How many lines were printed of how many, and those that differ.
fn other_stores(expected: &str, printed: &str) -> String {
    let [all, own] = [expected, printed].map(|text| text.lines().count());
    let mut out = format!("{own} lines of {all}");
    let pairs = expected.lines().zip(printed.lines());
    for (manual, text) in pairs.filter(|(manual, text)| manual != text) {
        out += &format!("\n  the manual {manual}\n  the text   {text}");
    }
    out
}

/// No blocks, every kind and form, closings, small files and some at the limit of a part.
fn trials(files: u64, first: u64) -> impl Iterator<Item = Trial> {
    let none = Params {
        blocks: 0,
        ..Params::small(first)
    };
    let forms = forms::all(1).map(Trial::Forms);
    let closings = closings::all().step_by(CLOSINGS_STEP).map(Trial::Closings);
    let small = trials::small(files, first).filter(|trial| !matches!(trial, Trial::Closings(_)));
    let limits = trials::limits(LIMITS, first);
    let others = forms.chain(closings).chain(small).chain(limits);
    [Trial::Scattered(none)].into_iter().chain(others)
}

fn run(words: &[String]) -> Result<Tally, String> {
    let number = |n: usize, usual: u64| words.get(n).map_or(Some(usual), |w| w.parse().ok());
    let (Some(name), Some(files), Some(first)) = (words.first(), number(1, FILES), number(2, 0))
    else {
        return Err("usage: compile-units library|original [FILES] [FIRST_SEED]".to_string());
    };
    let source = Source::named(name)?;
    let directory = Directory::new().map_err(|error| error.to_string())?;
    let mut tally = Tally::default();
    for (trial, &size) in trials(files, first).zip(SIZES.iter().cycle()) {
        tally.compile(&trial, size, &source, &directory);
    }
    tally.compile_stores(&source, &directory);
    Ok(tally)
}

fn main() -> ExitCode {
    let words: Vec<String> = std::env::args().skip(1).collect();
    let tally = match run(&words) {
        Ok(tally) => tally,
        Err(reason) => {
            eprintln!("{reason}");
            return ExitCode::from(2);
        }
    };
    println!(
        "{} files, {} units, {} bytes of text, {} stores, {} programs, {} failures",
        tally.files, tally.units, tally.bytes, tally.stores, tally.programs, tally.failures
    );
    match tally.failures {
        0 => ExitCode::SUCCESS,
        _ => ExitCode::FAILURE,
    }
}
