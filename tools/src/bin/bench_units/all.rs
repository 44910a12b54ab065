//! All units of a file by one call, with all text lent, against the original's whole emission.

use crate::{library, print_file, KIB, MIB};
use recomp_tools::file::File;
use recomp_tools::original::units::{Emitter, Timed};
use recomp_tools::original::Original;
use recomp_tools::timing::median_and_best;
use recomp_tools::trials;
use std::hint::black_box;
use std::time::Instant;

const SIZES: [u64; 3] = [64 * KIB, MIB, 4 * MIB];

/// Rounds unless told otherwise.
pub const ROUNDS: u64 = 7;

const COLUMNS: &str = concat!(
    "      size  units       bytes | lengths ms |   units ms      best   MB/s |",
    " original ms      best   MB/s | ratio  best | first call ms"
);

/// The library with all that it is lent for a file at one size.
struct Library<'a> {
    file: &'a [u8],
    size: u64,
    work: Vec<u32>,
    text: Vec<u8>,
    lengths: Vec<u64>,
}

impl Library<'_> {
    /// Lends what the original's emission came to.
    fn new(file: &File, size: u64, whole: Timed) -> Library<'_> {
        Library {
            file: &file.bytes,
            size,
            work: vec![0; 4 * file.blocks],
            text: vec![0; whole.bytes as usize],
            lengths: vec![0; whole.units as usize],
        }
    }

    /// Seconds of the call for the lengths of all units.
    fn lengths(&mut self) -> f64 {
        let start = Instant::now();
        let file = black_box(self.file);
        let answer = library::lengths(file, self.size, 0, &mut self.work, &mut self.lengths);
        let seconds = start.elapsed().as_secs_f64();
        assert_eq!((answer.number, answer.last), (0, 1), "at {}", self.size);
        assert_eq!(answer.count, self.lengths.len() as u64, "at {}", self.size);
        seconds
    }

    /// Seconds of the call for all units.
    fn units(&mut self) -> f64 {
        let start = Instant::now();
        let (file, lengths) = (black_box(self.file), &mut self.lengths);
        let answer = library::units(file, self.size, 0, &mut self.work, &mut self.text, lengths);
        let seconds = start.elapsed().as_secs_f64();
        assert_eq!((answer.number, answer.last), (0, 1), "at {}", self.size);
        assert_eq!(
            answer.length,
            Some(self.text.len() as u64),
            "at {}",
            self.size
        );
        seconds
    }
}

/// One line: medians and best rounds. The first call writes to memory that nobody has written to,
/// and is no round.
fn measure(file: &File, emitter: &mut Emitter, size: u64, rounds: u64) {
    let whole = emitter.time(0, size, u64::MAX);
    let mut library = Library::new(file, size, whole);
    let first = library.units();
    let [mut lengths, mut units, mut original] = [vec![], vec![], vec![]];
    for _ in 0..rounds {
        lengths.push(library.lengths());
        units.push(library.units());
        original.push(emitter.time(0, size, u64::MAX).seconds);
    }
    let [lengths, _] = median_and_best(lengths);
    let [units, units_best] = median_and_best(units);
    let [original, original_best] = median_and_best(original);
    let side = |median: f64, best: f64| {
        let rate = whole.bytes as f64 / median / 1e6;
        format!("{:10.2} {:9.2} {rate:6.0}", 1e3 * median, 1e3 * best)
    };
    println!(
        "  {:4} KiB {:6} {:11} | {:10.2} | {} | {:>28} | {:5.2} {:5.2} | {:10.2}",
        size / KIB,
        whole.units,
        whole.bytes,
        1e3 * lengths,
        side(units, units_best),
        side(original, original_best),
        units / original,
        units_best / original_best,
        1e3 * first
    );
}

/// Ratios are library / original, of medians and of best rounds. The lengths, which tell how much
/// is to be lent, are asked for apart.
pub fn run(original: &Original, rounds: u64) -> Result<(), String> {
    let program = original.build("units")?;
    println!("{rounds} rounds");
    for (name, trial) in trials::timed().into_iter().chain([trials::most_text()]) {
        let file = trial.file();
        print_file(name, &file);
        println!("{COLUMNS}");
        let mut emitter = Emitter::start(&program, &[&file.bytes]);
        for size in SIZES {
            measure(&file, &mut emitter, size, rounds);
        }
    }
    Ok(())
}
