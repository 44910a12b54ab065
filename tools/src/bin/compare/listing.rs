//! `compare listing`: the listing of generated files against the text that follows from the
//! original's plan and exits, and every byte and number lent.

use crate::{library, trial_words};
use recomp_tools::check::{check, Accepted, Refused};
use recomp_tools::damage::damaged_copy;
use recomp_tools::lent;
use recomp_tools::listing::outcome;
use recomp_tools::original::Original;
use recomp_tools::trials::{self, Trial};

/// Numbers and bytes lent beyond those that the call needs.
const SPARE_WORK: usize = 3;
const SPARE_TEXT: usize = 5;

/// A file with the answer of the check and, if it is accepted, its text.
struct Listed<'a> {
    bytes: &'a [u8],
    checked: Result<Accepted, Refused>,
    text: String,
}

impl<'a> Listed<'a> {
    fn new(bytes: &'a [u8], original: &Original) -> Listed<'a> {
        let checked = check(bytes);
        let text = checked.map_or_else(|_| String::new(), |_| original.listing(bytes));
        Listed {
            bytes,
            checked,
            text,
        }
    }

    /// Work numbers and bytes of text that the call needs; none where the file is refused.
    fn needs(&self) -> [usize; 2] {
        let blocks = self.checked.map_or(0, |counts| counts.blocks as usize);
        [4 * blocks, self.text.len()]
    }
}

#[derive(Default)]
struct Tally {
    files: u64,
    blocks: usize,
    bytes: usize,
    /// Calls by what they must answer: a listing, then refusals 1 to 10.
    answers: [u64; 11],
    mismatches: u64,
}

impl Tally {
    /// One call with so many numbers and bytes lent, and all that it leaves.
    fn call(&mut self, trial: &Trial, file: &Listed, lent: [usize; 2]) {
        let (mut work, mut text) = (lent::work(lent[0]), lent::text(lent[1]));
        let answer = library::listing(file.bytes, &mut work, &mut text);
        let expected = outcome(file.checked, file.text.as_bytes(), lent);
        let wrong_number = lent::wrong_number(&work, expected.cleared);
        let wrong_byte = lent::wrong_byte(&text, expected.front);
        self.answers[expected.numbers.number as usize] += 1;
        if answer == expected.numbers && wrong_number.is_none() && wrong_byte.is_none() {
            return;
        }
        self.mismatches += 1;
        println!("{trial:?}, {} work numbers, {} bytes:", lent[0], lent[1]);
        println!("  library {answer:?}, expected {:?}", expected.numbers);
        println!("  first wrong work number: {wrong_number:?}, first wrong byte: {wrong_byte:?}");
    }

    fn compare(&mut self, trial: &Trial, original: &Original) {
        let file = trial.file();
        let listed = Listed::new(&file.bytes, original);
        let [work, text] = listed.needs();
        assert_eq!(work, 4 * file.blocks, "{trial:?}");
        self.files += 1;
        self.blocks += file.blocks;
        self.bytes += text;
        let spare = [work + SPARE_WORK, text + SPARE_TEXT];
        self.call(trial, &listed, [work, text]);
        self.call(trial, &listed, spare);
        for text_len in [text - 1, text / 2, 0] {
            self.call(trial, &listed, [work, text_len]);
            self.call(trial, &listed, [work + SPARE_WORK, text_len]);
        }
        if file.blocks > 0 {
            self.call(trial, &listed, [work - 1, text]);
            self.call(trial, &listed, [work - 1, text - 1]);
            self.call(trial, &listed, [0, text + SPARE_TEXT]);
        }
        self.compare_damaged(trial, &damaged_copy(&file), spare, original);
    }

    /// A damaged copy may be accepted, with a longer text too. A refused one is lent as much as its
    /// file, and nothing.
    fn compare_damaged(
        &mut self,
        trial: &Trial,
        copy: &[u8],
        lent: [usize; 2],
        original: &Original,
    ) {
        let copy = Listed::new(copy, original);
        let [work, text] = copy.needs();
        self.call(trial, &copy, [work.max(lent[0]), text.max(lent[1])]);
        self.call(trial, &copy, [0, 0]);
    }

    fn print(&self) {
        for (number, count) in self.answers.iter().enumerate() {
            match number {
                0 => println!("listed     {count:7}"),
                // It is given by calls that name a block or unit.
                9 => {}
                _ => println!("refused {number:2} {count:7}"),
            }
        }
        let calls: u64 = self.answers.iter().sum();
        println!(
            "{} blocks, {} bytes of text, {calls} calls",
            self.blocks, self.bytes
        );
        println!(
            "listing: {} files, {} mismatches",
            self.files, self.mismatches
        );
    }
}

pub fn run(words: &[String]) -> Option<u64> {
    let (files, first, original) = trial_words(words)?;
    let mut tally = Tally::default();
    for trial in trials::small(files, first).chain(trials::large(first)) {
        tally.compare(&trial, &original);
    }
    tally.print();
    Some(tally.mismatches)
}
