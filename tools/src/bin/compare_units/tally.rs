//! What came of all calls, and how it is printed.

use recomp_tools::file::File;
use recomp_tools::original::MENDS;
use recomp_tools::record::StoredBase;
use recomp_tools::units::Told;

/// Mismatches that are printed; the others are counted.
const PRINTED: u64 = 20;

/// The calls for units, in the order of the columns.
#[derive(Clone, Copy)]
pub enum Call {
    Measure,
    Write,
    Units,
    Lengths,
}

const CALLS: [&str; 4] = ["measure", "write", "units", "lengths"];

/// Where an answer that is given back was kept from, in the order of the rows.
#[derive(Clone, Copy)]
pub enum Source {
    Size,
    File,
    Damage,
}

const SOURCES: [&str; 3] = ["another size", "the file before", "before the damage"];

#[derive(Default)]
pub struct Tally {
    pub files: u64,
    pub sizes: u64,
    pub units: u64,
    pub bytes: u64,
    /// Each call by what it must come to: an answer, then refusals 1 to 11.
    answers: [[u64; 12]; CALLS.len()],
    /// Answers that were kept, by what must come of them: written, refused with 11, or otherwise.
    kept: [[u64; 3]; SOURCES.len()],
    pub mismatches: u64,
    /// Records of the files that store a listed base, by what they are like.
    stored_bases: [u64; StoredBase::COUNT],
    /// What is told of the last file's units, at each of its sizes.
    pub before: Vec<Vec<Told>>,
}

impl Tally {
    pub fn count_stored_bases(&mut self, file: &File) {
        for stored in file.records().filter_map(|record| record.stored_base()) {
            self.stored_bases[stored.number()] += 1;
        }
    }

    /// A call that must answer this number.
    pub fn count(&mut self, call: Call, number: u32) {
        self.answers[call as usize][number as usize] += 1;
    }

    /// An answer that was kept, where writing by it must answer this number.
    pub fn count_kept(&mut self, source: Source, number: u32) {
        let column = match number {
            0 => 0,
            11 => 1,
            _ => 2,
        };
        self.kept[source as usize][column] += 1;
    }

    /// Counts a mismatch, and answers whether it is to be printed.
    pub fn mismatch(&mut self) -> bool {
        self.mismatches += 1;
        self.mismatches <= PRINTED
    }

    pub fn print(&self) {
        print_row("", CALLS);
        for number in 0..self.answers[0].len() {
            let name = match number {
                0 => "answered".to_string(),
                _ => format!("refused {number:2}"),
            };
            print_row(&name, self.answers.map(|answers| answers[number]));
        }
        print_row(
            "calls",
            self.answers.map(|answers| answers.iter().sum::<u64>()),
        );
        println!("answers kept from elsewhere:");
        print_row("", ["written", "refused 11", "otherwise"]);
        for (source, counts) in SOURCES.into_iter().zip(self.kept) {
            print_row(source, counts);
        }
        println!(
            "{} sizes, {} units, {} bytes of text",
            self.sizes, self.units, self.bytes
        );
        self.print_stored_bases();
        println!(
            "units: {} files, {} mismatches, against the original with {}",
            self.files,
            self.mismatches,
            MENDS.join(" ")
        );
    }

    /// A row by whether the base is the lowest and is written back, a column by the other three,
    /// which are the low bits of a number.
    fn print_stored_bases(&self) {
        println!("records that store a listed base:");
        let columns = ["DA", "DA if", "DB", "DB if", "IA", "IA if", "IB", "IB if"];
        println!("{:28}{}", "", columns.map(|c| format!("{c:>7}")).concat());
        for (row, counts) in self.stored_bases.chunks(columns.len()).enumerate() {
            let lowest = ["not lowest", "lowest"][row / 2];
            let writeback = ["without writeback", "with writeback"][row % 2];
            let counts: Vec<String> = counts.iter().map(|n| format!("{n:7}")).collect();
            println!("{lowest:>10}, {writeback:16}{}", counts.concat());
        }
    }
}

fn print_row<const N: usize>(name: &str, columns: [impl std::fmt::Display; N]) {
    let columns = columns.map(|column| format!(" {column:>10}"));
    println!("{name:17}{}", columns.concat());
}
