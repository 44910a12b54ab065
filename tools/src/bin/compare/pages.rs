//! `compare pages`: the pages of generated files, one by one and many by one call, against the
//! texts that follow from the original's plan and exits, and every byte and number lent.

use crate::{library, trial_words};
use recomp_tools::check::{check, Accepted, Refused};
use recomp_tools::damage::damaged_copy;
use recomp_tools::lent;
use recomp_tools::original::Original;
use recomp_tools::pages::{outcome, total, Asked};
use recomp_tools::samples;
use recomp_tools::trials;
use std::fmt::Debug;

/// Files at the edges of pages.
const ON_PAGES: u64 = 480;

/// Pages that are asked for in a file with more: each call groups the whole file.
const PAGES: usize = 12;

/// Numbers and bytes lent beyond those that a call needs.
const SPARE_WORK: usize = 3;
const SPARE_TEXT: usize = 5;

/// A file with the answer of the check and, if it is accepted, its pages.
struct Paged<'a> {
    /// What it was made from, or its name.
    name: &'a dyn Debug,
    bytes: &'a [u8],
    checked: Result<Accepted, Refused>,
    pages: Vec<String>,
}

impl<'a> Paged<'a> {
    fn new(name: &'a dyn Debug, bytes: &'a [u8], original: &Original) -> Paged<'a> {
        let checked = check(bytes);
        Paged {
            name,
            bytes,
            checked,
            pages: checked.map_or(vec![], |_| original.pages(bytes)),
        }
    }

    /// Work numbers that a call needs; none where the file is refused.
    fn work(&self) -> usize {
        self.checked.map_or(0, |counts| 4 * counts.blocks as usize)
    }

    /// The pages that are asked for, counted from 0: all of a few, else the first, a middle one and
    /// the last two.
    fn asked(&self) -> Vec<usize> {
        match self.pages.len() {
            few @ ..=PAGES => (0..few).collect(),
            many => vec![0, many / 2, many - 2, many - 1],
        }
    }
}

#[derive(Default)]
struct Tally {
    files: u64,
    pages: usize,
    bytes: usize,
    /// Calls for one page, and for pages, by what they must answer: pages, then refusals 1 to 10.
    answers: [[u64; 11]; 2],
    mismatches: u64,
}

impl Tally {
    /// One call with so many numbers and bytes lent, and all that it leaves.
    fn call(&mut self, file: &Paged, asked: Asked, lent: [usize; 2]) {
        let (mut work, mut text) = (lent::work(lent[0]), lent::text(lent[1]));
        let answer = library::pages(file.bytes, asked, &mut work, &mut text);
        let expected = outcome(file.checked, &file.pages, asked, lent);
        let wrong_number = lent::wrong_number(&work, expected.cleared);
        let wrong_byte = lent::wrong_byte(&text, expected.pages.concat().as_bytes());
        let many = matches!(asked, Asked::From(_)) as usize;
        self.answers[many][expected.numbers.number as usize] += 1;
        if answer == expected.numbers && wrong_number.is_none() && wrong_byte.is_none() {
            return;
        }
        self.mismatches += 1;
        println!("{asked:?} of {:?},", file.name);
        println!("  {} work numbers, {} bytes:", lent[0], lent[1]);
        println!("  library {answer:?}, expected {:?}", expected.numbers);
        println!("  first wrong work number: {wrong_number:?}, first wrong byte: {wrong_byte:?}");
    }

    /// Both calls, with work numbers exactly and, every other time, with some to spare.
    fn both(&mut self, file: &Paged, number: u64, texts: &[usize]) {
        for (n, &text) in texts.iter().enumerate() {
            let lent = [file.work() + n % 2 * SPARE_WORK, text];
            self.call(file, Asked::Page(number), lent);
            self.call(file, Asked::From(number), lent);
        }
    }

    /// A page, and the pages from it on, with a text that has room for none, for the page, for it
    /// and the next, and for all that are left: exactly, a byte short and with bytes to spare. A
    /// work number too few comes before all of these.
    fn page(&mut self, file: &Paged, n: usize) {
        let (number, from) = (n as u64 + 1, &file.pages[n..]);
        let two = total(&from[..from.len().min(2)]);
        let (one, all) = (from[0].len(), total(from));
        let fronts = [one, two, all].map(|text| [text - 1, text, text + SPARE_TEXT]);
        let mut texts = [&[0], fronts.as_flattened()].concat();
        // The last page is also the last two, and all that are left.
        texts.sort_unstable();
        texts.dedup();
        self.both(file, number, &texts);
        for text in [0, one, all] {
            let lent = [file.work() - 1, text];
            self.call(file, Asked::Page(number), lent);
            self.call(file, Asked::From(number), lent);
        }
    }

    /// Numbers that no page has, one of which would name the last by its low 32 bits alone. A work
    /// number too few, or none, comes before them.
    fn no_page(&mut self, file: &Paged) {
        let last = file.pages.len() as u64;
        let all = total(&file.pages);
        for number in [0, last + 1, last + 2, (1 << 32) + last, u64::MAX] {
            self.both(file, number, &[0, all, all + SPARE_TEXT]);
            for work in [file.work().saturating_sub(1), 0] {
                self.call(file, Asked::Page(number), [work, all]);
                self.call(file, Asked::From(number), [work, 0]);
            }
        }
    }

    fn compare(&mut self, file: &Paged) {
        assert!(file.checked.is_ok(), "refused: {:?}", file.name);
        self.files += 1;
        self.pages += file.pages.len();
        self.bytes += total(&file.pages);
        for n in file.asked() {
            self.page(file, n);
        }
        self.no_page(file);
    }

    /// A damaged copy may be accepted, with more pages too. It is lent as much as its file or more,
    /// and nothing.
    fn compare_damaged(&mut self, copy: &Paged, file: &Paged) {
        let work = copy.work().max(file.work()) + SPARE_WORK;
        let text = total(&copy.pages).max(total(&file.pages));
        for asked in [Asked::Page(1), Asked::From(1)] {
            self.call(copy, asked, [work, text]);
            self.call(copy, asked, [0, 0]);
        }
    }

    fn print(&self) {
        for number in 0..11 {
            let [page, pages] = self.answers.map(|answers| answers[number]);
            match number {
                0 => println!("answered   {page:7} {pages:7}"),
                _ => println!("refused {number:2} {page:7} {pages:7}"),
            }
        }
        let [page, pages] = self.answers.map(|answers| answers.iter().sum::<u64>());
        println!(
            "{} pages, {} bytes of text, {page} calls for one page, {pages} for several",
            self.pages, self.bytes
        );
        println!(
            "pages: {} files, {} mismatches",
            self.files, self.mismatches
        );
    }
}

pub fn run(words: &[String]) -> Option<u64> {
    let (files, first, original) = trial_words(words)?;
    let mut tally = Tally::default();
    let trials = trials::small(files, first).chain(trials::on_pages(ON_PAGES, first));
    for trial in trials.chain(trials::large(first)) {
        let file = trial.file();
        let copy = damaged_copy(&file);
        let paged = Paged::new(&trial, &file.bytes, &original);
        tally.compare(&paged);
        tally.compare_damaged(&Paged::new(&trial, &copy, &original), &paged);
    }
    for (name, bytes) in samples::all() {
        tally.compare(&Paged::new(&name, &bytes, &original));
    }
    tally.print();
    Some(tally.mismatches)
}
