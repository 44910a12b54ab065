//! What becomes of the instructions of a file, in numbers: how many go native, how many to a shell
//! for which reason, and how many are not printed.

use crate::lent::NoResult;
use crate::reasons::Reasons;
use crate::unprinted::{unprinted, Why};
use std::fmt::{self, Display, Formatter};

/// The reasons, in the order in which the first that holds is given.
const REASONS: [&str; 11] = [
    "unpaired half",
    "conditional exit",
    "BIOS exit",
    "PC as result or stored register",
    "register-given shift",
    "rotate with extend in an offset",
    "user registers",
    "empty list",
    "PC as base",
    "PC in a loaded list",
    "no native form",
];

/// The kinds, by their number in an instruction record.
const KINDS: [&str; 15] = [
    "Alu",
    "Mul",
    "MulLong",
    "Swap",
    "Bx",
    "Branch",
    "ThumbBlHigh",
    "ThumbBlLow",
    "Mem",
    "BlockMem",
    "Mrs",
    "MsrReg",
    "MsrImm",
    "Swi",
    "Undefined",
];

/// How many sentences each reason has with each kind.
type Sentences = [[u64; KINDS.len()]; REASONS.len()];

#[derive(Debug, PartialEq, Eq)]
pub struct Summary {
    /// All of them; those that are counted nowhere else are native.
    instructions: u64,
    deferred: u64,
    dropped: u64,
    sentences: Sentences,
}

impl Summary {
    pub fn of(file: &[u8]) -> Result<Summary, NoResult> {
        let mut reasons = Reasons::new(file)?;
        let mut summary = Summary {
            instructions: reasons.instructions(),
            deferred: 0,
            dropped: 0,
            sentences: Sentences::default(),
        };
        while let Some(lines) = reasons.hand_out()? {
            summary.add_sentences(lines);
        }
        for some in unprinted(file) {
            let count = match some.why {
                Why::Deferred => &mut summary.deferred,
                Why::Dropped => &mut summary.dropped,
            };
            *count += some.numbers.end - some.numbers.start;
        }
        Ok(summary)
    }

    fn add_sentences(&mut self, lines: &[u8]) {
        let lines = std::str::from_utf8(lines).expect("sentences are ASCII");
        for line in lines.lines() {
            let mut words = line.splitn(3, ' ').skip(1);
            let mut place = |among: &[&str]| {
                let word = words.next().expect("address, kind and reason");
                let place = among.iter().position(|each| *each == word);
                place.expect("a kind or reason of those that there are")
            };
            let (kind, reason) = (place(&KINDS), place(&REASONS));
            self.sentences[reason][kind] += 1;
        }
    }

    /// What becomes of instructions, with how many of them, then all.
    fn outcomes(&self) -> [(&str, u64); 5] {
        let all = self.instructions;
        let (deferred, dropped) = (self.deferred, self.dropped);
        let shells = self.sentences.as_flattened().iter().sum();
        [
            ("native", all - shells - deferred - dropped),
            ("shell", shells),
            ("deferred", deferred),
            ("dropped", dropped),
            ("all", all),
        ]
    }

    /// A number of instructions with its percentage.
    fn share(&self, count: u64) -> String {
        format!("{count} {}", percent(count, self.instructions))
    }
}

/// The percentage with one digit behind the point, rounded, or `-` where there is nothing.
fn percent(part: u64, all: u64) -> String {
    if all == 0 {
        return "-".into();
    }
    let tenths = (1000 * part + all / 2) / all;
    format!("{}.{}", tenths / 10, tenths % 10)
}

impl Display for Summary {
    fn fmt(&self, to: &mut Formatter) -> fmt::Result {
        writeln!(to, "count percent outcome")?;
        for (outcome, count) in self.outcomes() {
            writeln!(to, "{} {outcome}", self.share(count))?;
        }
        writeln!(to, "count percent kind reason")?;
        for (reason, counts) in REASONS.iter().zip(&self.sentences) {
            let counts = KINDS.iter().zip(counts);
            for (kind, &count) in counts.filter(|(_, &count)| count > 0) {
                writeln!(to, "{} {kind} {reason}", self.share(count))?;
            }
        }
        Ok(())
    }
}

#[cfg(test)]
mod tests {
    use super::*;

    #[test]
    fn percentages_are_rounded_to_one_digit() {
        for (part, all, expected) in [
            (0, 0, "-"),
            (0, 7, "0.0"),
            (7, 7, "100.0"),
            (1, 3, "33.3"),
            (2, 3, "66.7"),
            (1, 8, "12.5"),
            (1, 2000, "0.1"),
            (1, 2001, "0.0"),
            (1_047_000, 1_048_576, "99.8"),
            (1_048_575, 1_048_576, "100.0"),
        ] {
            assert_eq!(percent(part, all), expected, "{part} of {all}");
        }
    }
}
