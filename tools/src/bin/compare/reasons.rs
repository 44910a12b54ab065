//! `compare reasons`: the sentences of generated files, one by one and many by one call, against
//! the model of the tools, and every byte lent; and their addresses against the shells that the
//! original's text has, block by block.

mod calls;
mod counts;
mod printed;

use crate::trial_words;
use calls::{Said, Sort};
use counts::Counts;
use recomp_tools::check::check;
use recomp_tools::damage::damaged_copy;
use recomp_tools::generate::forms;
use recomp_tools::original::units::Emitter;
use recomp_tools::original::Program;
use recomp_tools::samples;
use recomp_tools::trials::{self, Trial};
use std::fmt::Debug;

/// Turns of the files with every kind and form.
const TURNS: usize = 8;

/// Files that one process of the original gets.
const BATCH: usize = 200;

/// Files with longer blocks. The largest come after them.
const LIMITS: u64 = 60;

/// Mismatches that are printed; the others are counted.
const PRINTED: u64 = 20;

#[derive(Default)]
struct Tally {
    files: u64,
    /// Bytes of all lines of the files.
    bytes: usize,
    /// Calls for one sentence, and for sentences, by what they must come to: an answer, then
    /// refusals 1 to 10.
    answers: [[u64; 11]; 2],
    /// What became of the instructions of small files.
    counts: Counts,
    /// Blocks of the original's text, and shells in them.
    blocks: usize,
    shells: usize,
    /// Mismatches with the model, and with the original's text.
    mismatches: [u64; 2],
}

/// What the library is compared with.
#[derive(Clone, Copy)]
enum Side {
    Model,
    Original,
}

impl Tally {
    /// Counts a mismatch, and prints it unless there were many.
    fn mismatch(&mut self, side: Side, file: &Said, what: &str) {
        let count = &mut self.mismatches[side as usize];
        *count += 1;
        if *count <= PRINTED {
            println!("{:?}: {what}", file.name);
        }
    }

    /// Some files, by one process of the original. A damaged copy that is accepted is one of them.
    fn batch(&mut self, program: &Program, sort: Sort, files: &[(&dyn Debug, &[u8])]) {
        let accepted = |file: &&(&dyn Debug, &[u8])| check(file.1).is_ok();
        let taken: Vec<&[u8]> = files.iter().filter(accepted).map(|file| file.1).collect();
        let mut emitter = Emitter::start(program, &taken);
        let mut places = 0..;
        for file in files {
            let said = Said::new(file.0, file.1, sort);
            if !accepted(&file) {
                self.refused(&said);
                continue;
            }
            self.files += 1;
            if sort == Sort::Small {
                self.counts.add(file.1);
            }
            self.calls(&said);
            let place = places.next().expect("as many places as files");
            self.hold_against(&said, &emitter.units(place, u64::MAX));
        }
    }

    /// Files and a damaged copy of each, some at a time.
    fn trials(&mut self, program: &Program, sort: Sort, trials: &[Trial]) {
        for batch in trials.chunks(sort.batch()) {
            let files: Vec<_> = batch.iter().map(Trial::file).collect();
            let copies: Vec<_> = files.iter().map(damaged_copy).collect();
            let named = |trial| trial as &dyn Debug;
            let files = files.iter().map(|file| &file.bytes[..]);
            let whole = batch.iter().map(named).zip(files);
            let damaged = batch
                .iter()
                .map(named)
                .zip(copies.iter().map(|copy| &copy[..]));
            let all: Vec<_> = whole.chain(damaged).collect();
            self.batch(program, sort, &all);
        }
    }

    fn print(&self) {
        for number in 0..11 {
            let [one, many] = self.answers.map(|answers| answers[number]);
            match number {
                0 => println!("answered   {one:8} {many:8}"),
                // No work numbers are lent.
                8 => {}
                _ => println!("refused {number:2} {one:8} {many:8}"),
            }
        }
        let [one, many] = self.answers.map(|answers| answers.iter().sum::<u64>());
        println!("{one} calls for one sentence, {many} for sentences");
        self.counts.print();
        println!(
            "{} bytes of lines; {} blocks in the original's text, with {} shells",
            self.bytes, self.blocks, self.shells
        );
        let [model, original] = self.mismatches;
        println!(
            "reasons: {} files, {model} mismatches with the model, {original} with the original",
            self.files
        );
    }
}

impl Sort {
    fn batch(self) -> usize {
        match self {
            Sort::Small => BATCH,
            Sort::Large => 1,
        }
    }
}

pub fn run(words: &[String]) -> Option<u64> {
    let (files, first, original) = trial_words(words)?;
    let large = words.get(2).map_or(Some(usize::MAX), |w| w.parse().ok())?;
    let program = original.build("units");
    let program = program.map_err(|reason| eprintln!("{reason}")).ok()?;
    let mut tally = Tally::default();
    let small = trials::small(files, first).chain(trials::shells(files, first));
    let small: Vec<Trial> = small.chain(forms::all(TURNS).map(Trial::Forms)).collect();
    tally.trials(&program, Sort::Small, &small);
    let samples = samples::all();
    let samples = samples.iter();
    let samples = samples.map(|(name, file)| (name as &dyn Debug, &file[..]));
    tally.batch(&program, Sort::Small, &samples.collect::<Vec<_>>());
    let largest = trials::timed().map(|(_, trial)| trial);
    let larger = trials::limits(LIMITS, first).chain(largest);
    tally.trials(
        &program,
        Sort::Large,
        &larger.take(large).collect::<Vec<_>>(),
    );
    tally.print();
    Some(tally.mismatches.iter().sum())
}
