//! Single units, measured and then written, and all units of a file in that way.
//!
//! The original hands on one unit after the other, so a unit of it costs all those before it: it is
//! timed up to the unit that the library is asked for, and as a whole.

use crate::{library, print_file, MIB};
use recomp_tools::file::File;
use recomp_tools::original::units::{Emitter, Timed};
use recomp_tools::original::Original;
use recomp_tools::timing::median_and_best;
use recomp_tools::trials;
use recomp_tools::units::Told;
use std::hint::black_box;
use std::time::Instant;

const SIZES: [u64; 2] = [MIB, 4 * MIB];

const COLUMNS: &str = concat!(
    "  unit         bytes |  measure ms      best  whole |    write ms      best   MB/s |",
    " original ms      best   MB/s |  ratio   best  whole"
);

/// Rounds unless told otherwise: for single units, and for all units of a file.
pub const ROUNDS: u64 = 11;
pub const ROUNDS_OF_ALL: u64 = 3;

/// Seconds of the two calls for a unit, or for some, and the bytes that they made.
#[derive(Clone, Copy, Default)]
struct Calls {
    measure: f64,
    write: f64,
    bytes: u64,
}

/// The library with all that it is lent.
struct Library<'a> {
    file: &'a [u8],
    work: Vec<u32>,
    text: Vec<u8>,
}

impl Library<'_> {
    fn new(file: &File) -> Library<'_> {
        Library {
            file: &file.bytes,
            work: vec![0; 4 * file.blocks],
            // A group is added whole, and the last unit has a line or two for each block.
            text: vec![0; 32 << 20],
        }
    }

    /// Seconds of the call that measures, and what it told.
    fn measure(&mut self, size: u64, unit: u64) -> (f64, Told) {
        let start = Instant::now();
        let answer = library::measure(black_box(self.file), size, unit, &mut self.work);
        let seconds = start.elapsed().as_secs_f64();
        assert_eq!(answer.number, 0, "unit {unit} at {size}");
        (seconds, answer.told)
    }

    /// Seconds of the call that writes, lent so many bytes, where it must answer this number.
    fn write(&mut self, size: u64, told: Told, lent: usize, number: u32) -> f64 {
        let text = &mut self.text[..lent];
        let start = Instant::now();
        let file = black_box(self.file);
        let answer = library::write(file, size, told, &mut self.work, text);
        let seconds = start.elapsed().as_secs_f64();
        assert_eq!(answer.number, number, "{told:?} at {size}");
        seconds
    }

    /// One unit: measured, then written.
    fn unit(&mut self, size: u64, unit: u64) -> Calls {
        let (measure, told) = self.measure(size, unit);
        let bytes = told.length;
        let write = self.write(size, told, bytes as usize, 0);
        Calls {
            measure,
            write,
            bytes,
        }
    }

    /// All units, one after the other.
    fn all(&mut self, size: u64, units: u64) -> Calls {
        let each = (0..units).map(|unit| self.unit(size, unit));
        each.fold(Calls::default(), |all, unit| Calls {
            measure: all.measure + unit.measure,
            write: all.write + unit.write,
            bytes: all.bytes + unit.bytes,
        })
    }
}

/// Seconds of either side, and the bytes that they made.
#[derive(Default)]
struct Times {
    measure: Vec<f64>,
    write: Vec<f64>,
    original: Vec<f64>,
    bytes: u64,
    original_bytes: u64,
}

impl Times {
    fn add(&mut self, library: Calls, original: Timed) {
        self.measure.push(library.measure);
        self.write.push(library.write);
        self.original.push(original.seconds);
        (self.bytes, self.original_bytes) = (library.bytes, original.bytes);
    }

    fn print(self, name: &str, whole: f64) {
        let sides = [self.measure, self.write, self.original];
        let [measure, write, original] = sides.map(median_and_best);
        let times = |[median, best]: [f64; 2]| format!("{:11.2} {:9.2}", 1e3 * median, 1e3 * best);
        let rate = |bytes: u64, seconds: f64| bytes as f64 / seconds / 1e6;
        println!(
            "  {name:7} {:10} | {} {:6.2} | {} {:6.0} | {} {:6.0} | {:6.2} {:6.2} {:6.2}",
            self.bytes,
            times(measure),
            measure[0] / whole,
            times(write),
            rate(self.bytes, write[0]),
            times(original),
            rate(self.original_bytes, original[0]),
            write[0] / original[0],
            write[1] / original[1],
            write[0] / whole
        );
    }
}

/// Single units and all of them, at one size.
fn measure(library: &mut Library, emitter: &mut Emitter, size: u64, [rounds, of_all]: [u64; 2]) {
    let whole = emitter.time(0, size, u64::MAX);
    let units = whole.units;
    println!(
        "  at {} MiB: {units} units, {} bytes",
        size / MIB,
        whole.bytes
    );
    println!("{COLUMNS}");
    let places = [("first", 0), ("middle", units / 2), ("last", units - 1)];
    let mut single = places.map(|_| Times::default());
    for _ in 0..rounds {
        for (times, (_, unit)) in single.iter_mut().zip(places) {
            let library = library.unit(size, unit);
            times.add(library, emitter.time(0, size, unit + 1));
        }
    }
    let mut all = Times::default();
    for _ in 0..of_all {
        let library = library.all(size, units);
        all.add(library, emitter.time(0, size, u64::MAX));
    }
    assert_eq!(all.bytes, all.original_bytes, "bytes of all units");
    // Up to the last unit is the whole.
    let [whole, _] = median_and_best(single[2].original.clone());
    for (times, (name, _)) in single.into_iter().zip(places) {
        times.print(name, whole);
    }
    all.print("all", whole);
}

/// The writing alone, of the whole file as one unit: how much longer the call takes than one that
/// is refused for want of a byte. The original's rate is that of its whole run.
fn measure_writing(library: &mut Library, emitter: &mut Emitter, rounds: u64) {
    let size = u64::MAX;
    let whole = emitter.time(0, size, u64::MAX);
    let bytes = whole.bytes as usize;
    library.text.resize(bytes, 0);
    let (_, told) = library.measure(size, 0);
    assert_eq!(told.length, whole.bytes, "bytes of the file as one unit");
    let [mut written, mut refused, mut original] = [vec![], vec![], vec![]];
    for _ in 0..rounds {
        written.push(library.write(size, told, bytes, 0));
        refused.push(library.write(size, told, bytes - 1, 10));
        original.push(emitter.time(0, size, u64::MAX).seconds);
    }
    let [[written, _], [refused, _], [original, _]] =
        [written, refused, original].map(median_and_best);
    let rate = |seconds: f64| whole.bytes as f64 / seconds / 1e6;
    println!(
        "  as one unit of {bytes} bytes: library {:.2} ms, {:.2} ms without writing; writing alone {:.0} MB/s, original {:.0} MB/s, ratio {:.2}",
        1e3 * written,
        1e3 * refused,
        rate(written - refused),
        rate(original),
        rate(written - refused) / rate(original)
    );
}

/// Ratios of writing are library / original: of medians, of best rounds, and the library's median
/// against the original's for the whole file, which measuring is held against alone.
pub fn run(original: &Original, rounds: [u64; 2]) -> Result<(), String> {
    let program = original.build("units")?;
    println!(
        "{} rounds for single units, {} for all",
        rounds[0], rounds[1]
    );
    for (name, trial) in trials::timed() {
        let file = trial.file();
        print_file(name, &file);
        let mut emitter = Emitter::start(&program, &[&file.bytes]);
        let mut library = Library::new(&file);
        for size in SIZES {
            measure(&mut library, &mut emitter, size, rounds);
            let whole = original.run("bench", &file.bytes, &[&size.to_string()]);
            println!("  original by its own program: {}", whole.trim());
        }
        measure_writing(&mut library, &mut emitter, rounds[0]);
    }
    Ok(())
}
