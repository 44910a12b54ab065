//! The files that calls are made for, at which sizes, and what is tried with each.

use crate::tally::{Source, Tally};
use recomp_tools::check::{check, Accepted, Refused};
use recomp_tools::original::units::Emitter;
use recomp_tools::trials::Trial;
use recomp_tools::units::{reached, told, Told, Unit};

/// Numbers and bytes lent beyond those that the call needs.
pub const SPARE_WORK: usize = 3;
pub const SPARE_TEXT: usize = 5;

pub const MIB: u64 = 1 << 20;

/// Sizes that no small file reaches. Of some the low 32 bits alone would be a small size.
const HUGE: [u64; 4] = [MIB, 1 << 32, (1 << 63) + 1, u64::MAX];

/// It settles the sizes that units are asked for at, and how many calls are made.
#[derive(Clone, Copy, PartialEq, Eq)]
pub enum Sort {
    Small,
    /// Around the limit of a part.
    Limit,
    Largest,
}

/// A file, and what it was made from.
#[derive(Clone, Copy)]
pub struct Tried<'a> {
    pub trial: &'a Trial,
    pub sort: Sort,
    pub bytes: &'a [u8],
}

/// A file with the answer of the check and, if it is accepted, its units at one size.
pub struct Emitted<'a> {
    pub tried: Tried<'a>,
    pub checked: Result<Accepted, Refused>,
    pub size: u64,
    pub units: Vec<Unit>,
}

impl Emitted<'_> {
    /// Work numbers that a call needs; none where the file is refused.
    pub fn work(&self) -> usize {
        self.checked.map_or(0, |counts| 4 * counts.blocks as usize)
    }

    /// What must be told of unit `k`, which there is.
    pub fn told(&self, k: usize) -> Told {
        told(&self.units, k as u64).expect("a unit")
    }

    fn all_told(&self) -> Vec<Told> {
        (0..self.units.len()).map(|k| self.told(k)).collect()
    }

    /// Of so many units those that more is tried with: all of a small file, and the first, a middle
    /// one and the last of others.
    pub fn chosen(&self, count: usize) -> Vec<usize> {
        let mut chosen = match self.tried.sort {
            Sort::Small => (0..count).collect(),
            _ => vec![0, count / 2, count - 1],
        };
        chosen.dedup();
        chosen
    }
}

/// The file with its units at each of these sizes, none where the emitter has it at no place.
fn emitted<'a>(
    tried: Tried<'a>,
    emitter: &mut Emitter,
    place: Option<usize>,
    sizes: &[u64],
) -> Vec<Emitted<'a>> {
    let checked = check(tried.bytes);
    let emitted = sizes.iter().map(|&size| Emitted {
        tried,
        checked,
        size,
        units: place.map_or(vec![], |at| emitter.units(at, size)),
    });
    emitted.collect()
}

impl Tally {
    /// A file that the emitter has at place `at`.
    pub fn compare(&mut self, file: Tried, emitter: &mut Emitter, at: usize) {
        self.files += 1;
        let sizes = sizes(emitter, at, file.sort, self.files as usize);
        let files = emitted(file, emitter, Some(at), &sizes);
        for file in &files {
            assert!(file.checked.is_ok(), "{:?}", file.tried.trial);
            self.sizes += 1;
            self.units += file.units.len() as u64;
            let lengths = file.units.iter().map(|unit| unit.text.len() as u64);
            self.bytes += lengths.sum::<u64>();
            self.single(file);
            self.fronts(file);
        }
        self.kept_elsewhere(&files);
    }

    /// What is told of a file at one size is given at the next or the one before it, in turns, and
    /// what was told of the file before at the same place among its sizes.
    fn kept_elsewhere(&mut self, files: &[Emitted]) {
        let told: Vec<Vec<Told>> = files.iter().map(Emitted::all_told).collect();
        let before = std::mem::replace(&mut self.before, told.clone());
        let step = [1, files.len() - 1][self.files as usize % 2];
        for (n, file) in files.iter().enumerate() {
            if files.len() > 1 {
                self.kept(file, &told[(n + step) % files.len()], Source::Size);
            }
            if let Some(told) = before.get(n) {
                self.kept(file, told, Source::File);
            }
        }
    }

    /// A damaged copy of the last file, which may be accepted: then the emitter has it at a place.
    pub fn compare_damaged(&mut self, copy: Tried, emitter: &mut Emitter, place: Option<usize>) {
        let before = self.before.clone();
        let files = emitted(copy, emitter, place, &[0, u64::MAX]);
        let told = [&before[0], &before[before.len() - 1]];
        for (file, told) in files.iter().zip(told) {
            self.single_of_damaged(file, told);
            self.fronts_of_damaged(file);
        }
    }
}

/// 0, 1, a size that some unit meets exactly after one of the groups, that plus 1, and a large one.
/// Of a file around the limit of a part 1 MiB is asked for in place of 1, and of the largest alone.
fn sizes(emitter: &mut Emitter, at: usize, sort: Sort, turn: usize) -> Vec<u64> {
    if sort == Sort::Largest {
        return vec![MIB];
    }
    let [each, whole] = [0, u64::MAX].map(|size| emitter.units(at, size));
    let reached = reached(&each, &whole[0]);
    // Without groups none is met: the length of the only unit takes its place.
    let exact = match reached.len() {
        0 => whole[0].text.len(),
        groups => reached[turn % groups],
    };
    let exact = exact as u64;
    match sort {
        Sort::Small => vec![0, 1, exact, exact + 1, HUGE[turn % HUGE.len()]],
        _ => vec![0, exact, exact + 1, MIB, u64::MAX],
    }
}
