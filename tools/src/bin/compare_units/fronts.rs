//! The calls for the units from a given one on, and for their lengths, that are made for a file.

use crate::calls::{Emitted, MIB, SPARE_TEXT, SPARE_WORK};
use crate::library;
use crate::tally::{Call, Tally};
use recomp_tools::check::Accepted;
use recomp_tools::fronts::{outcome, total, FrontNumbers, Lent};
use recomp_tools::lent;
use recomp_tools::units::Unit;

/// More is not lent beyond what is needed.
const MOST_SPARE: usize = 32 << 20;

/// The answer of one call, and the buffers that it was lent.
struct Left {
    numbers: FrontNumbers,
    work: Vec<u32>,
    text: Vec<u8>,
    lengths: Vec<u64>,
}

/// The call for units or, where no text is lent, for lengths.
fn ask(file: &Emitted, first: u64, lent: Lent) -> Left {
    let (mut work, mut lengths) = (lent::work(lent.work), lent::lengths(lent.lengths));
    let mut text = lent::text(lent.text.unwrap_or(0));
    let (bytes, size) = (file.tried.bytes, file.size);
    let numbers = match lent.text {
        Some(_) => library::units(bytes, size, first, &mut work, &mut text, &mut lengths),
        None => library::lengths(bytes, size, first, &mut work, &mut lengths),
    };
    Left {
        numbers,
        work,
        text,
        lengths,
    }
}

impl Tally {
    /// One call with so much lent, and all that it leaves.
    fn front(&mut self, file: &Emitted, first: u64, lent: Lent) {
        let left = ask(file, first, lent);
        let expected = outcome(file.checked, &file.units, first, lent);
        let texts: Vec<&[u8]> = expected.units.iter().map(|unit| &unit.text[..]).collect();
        let lengths: Vec<u64> = texts.iter().map(|text| text.len() as u64).collect();
        // The call for lengths is lent no text.
        let front = lent.text.map_or(vec![], |_| texts.concat());
        let wrong = [
            lent::wrong_number(&left.work, expected.cleared),
            lent::wrong_byte(&left.text, &front),
            lent::wrong_length(&left.lengths, &lengths),
        ];
        let call = match lent.text {
            Some(_) => Call::Units,
            None => Call::Lengths,
        };
        self.count(call, expected.numbers.number);
        let right = left.numbers == expected.numbers && wrong == [None; 3];
        if !right && self.mismatch() {
            let (size, trial) = (file.size, file.tried.trial);
            println!("units from {first} on at {size} of {trial:?},");
            println!("  {lent:?}:");
            println!("  library {:?},", left.numbers);
            println!("  expected {:?}", expected.numbers);
            println!("  first wrong work number, byte and length: {wrong:?}");
        }
    }

    /// All units, and those from the first, a middle or the last one on, in turns.
    pub fn fronts(&mut self, file: &Emitted) {
        let (count, work) = (file.units.len(), file.work());
        let all = total(&file.units);
        let roomy = all + longest_unit(file);
        let all_units = [
            (Some(all), count),
            (Some(roomy), count),
            (Some(roomy), count - 1),
            (None, count),
        ];
        for (text, lengths) in all_units {
            let lent = Lent {
                work,
                text,
                lengths,
            };
            self.front(file, 0, lent);
        }
        let first = [0, count / 2, count - 1][self.sizes as usize % 3];
        for lent in lents(&file.units[first..], work) {
            self.front(file, first as u64, lent);
        }
        self.no_first(file);
        if work > 0 {
            self.short_work_for_fronts(file);
        }
    }

    /// Numbers past the last unit, of which one would name the last by its low 32 bits alone; with
    /// room for all units, for one, and none.
    fn no_first(&mut self, file: &Emitted) {
        let (count, work) = (file.units.len(), file.work());
        let last = file.units[count - 1].text.len();
        let asked = [
            (count as u64, total(&file.units), count),
            ((1 << 32) + count as u64 - 1, last, 1),
            (u64::MAX, 0, 0),
        ];
        for (first, text, lengths) in asked {
            for text in [Some(text), None] {
                let lent = Lent {
                    work,
                    text,
                    lengths,
                };
                self.front(file, first, lent);
            }
        }
    }

    /// Too few work numbers: whatever unit is named, and whatever else is lent.
    fn short_work_for_fronts(&mut self, file: &Emitted) {
        let count = file.units.len() as u64;
        let (work, text) = (file.work() - 1, file.units[0].text.len());
        for (first, text, lengths) in [(0, text, 1), (count, 0, 0)] {
            for text in [Some(text), None] {
                let lent = Lent {
                    work,
                    text,
                    lengths,
                };
                self.front(file, first, lent);
            }
        }
    }

    /// A damaged copy, which may be accepted, is lent enough, and nothing.
    pub fn fronts_of_damaged(&mut self, file: &Emitted) {
        let (count, text) = (file.units.len(), total(&file.units));
        for text in [Some(text + SPARE_TEXT), None] {
            let lent = Lent {
                work: file.work() + SPARE_WORK,
                text,
                lengths: count + 1,
            };
            self.front(file, 0, lent);
            let nothing = Lent {
                work: 0,
                text: text.map(|_| 0),
                lengths: 0,
            };
            self.front(file, u64::MAX, nothing);
        }
    }
}

/// No unit is longer, so that where as much is left of a text none needs to be measured before it
/// is written: the wished size, and bounds of what instructions, blocks and the rest add to a text.
/// Of the largest files all text is more than that.
fn longest_unit(file: &Emitted) -> usize {
    let of = |counts: Accepted| 2_600 * counts.instructions + 800 * counts.blocks + 4_300;
    let longest = file.checked.map_or(0, of) + file.size.min(MIB);
    (longest as usize).min(MOST_SPARE)
}

/// What is lent for these units, of which there is at least one: texts with room to spare, a byte
/// short, for two units and a bit, for one, a byte short of that, and empty; and places for one
/// length more than there are units, for one fewer, for one, and none.
fn lents(from: &[Unit], work: usize) -> Vec<Lent> {
    let (count, all, one) = (from.len(), total(from), from[0].text.len());
    // Of fewer than three units: all but the last, and half of that.
    let whole = 2.min(count - 1);
    let bit = total(&from[..whole]) + from[whole].text.len() / 2;
    let for_units = [
        (all + SPARE_TEXT, count + 1),
        (all - 1, count),
        (bit, count + 1),
        (one, count),
        (one - 1, count),
        (0, count),
        (all, count - 1),
        (all, 1),
        (all, 0),
    ];
    let for_units = for_units.map(|(text, lengths)| (Some(text), lengths));
    let for_lengths = [count + 1, count, count - 1, 1, 0].map(|lengths| (None, lengths));
    let lents = for_units.into_iter().chain(for_lengths).enumerate();
    // Every other call has work numbers to spare.
    let lents = lents.map(|(n, (text, lengths))| Lent {
        work: work + n % 2 * SPARE_WORK,
        text,
        lengths,
    });
    lents.collect()
}
