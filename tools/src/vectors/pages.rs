//! Vectors for the calls for one page of the plan and for the pages from one on.

use super::grouping::{arm, cut_files, damaged_files};
use super::{halves, push_file, push_numbers, units, AMPLE_WORK, LONGEST_TEXT};
use crate::check::{check, Accepted, Refused};
use crate::file::{build, File};
use crate::generate::linked::{Graph, Linked, Sets};
use crate::generate::Lengths;
use crate::model;
use crate::pages::{outcome, total, Asked, PageNumbers};
use crate::record::Record;

/// Bytes lent for files whose blocks are not looked at.
const AMPLE_TEXT: usize = 9_000;

/// A file, what is asked of it, and how many numbers and bytes are lent, with how many work numbers
/// become 0, the answer, and the text's front, empty on refusal.
pub struct PageVector {
    pub asked: Asked,
    pub work_len: usize,
    pub text_len: usize,
    pub cleared: usize,
    pub expected: PageNumbers,
    pub text: String,
    pub file: Vec<u8>,
}

/// Which of the two calls: what it asks for, by the number of a page.
type Call = fn(u64) -> Asked;

/// A file with the answer of the check and its pages, none where it is refused.
struct Paged<'a> {
    file: &'a [u8],
    checked: Result<Accepted, Refused>,
    pages: Vec<String>,
}

impl<'a> Paged<'a> {
    fn new(file: &'a [u8]) -> Paged<'a> {
        let checked = check(file);
        Paged {
            file,
            checked,
            pages: checked.map_or(vec![], |_| model::pages(file)),
        }
    }

    fn work(&self) -> usize {
        self.checked.map_or(0, |counts| 4 * counts.blocks as usize)
    }

    fn vector(&self, asked: Asked, lent: [usize; 2]) -> PageVector {
        let outcome = outcome(self.checked, &self.pages, asked, lent);
        assert!(lent[1] <= LONGEST_TEXT);
        PageVector {
            asked,
            work_len: lent[0],
            text_len: lent[1],
            cleared: outcome.cleared,
            expected: outcome.numbers,
            text: outcome.pages.concat(),
            file: self.file.to_vec(),
        }
    }

    /// Page `n`, counted from 0, or the pages from it on: a text with room for it, for it and the
    /// next and for all that are left, each exactly and a byte short; with bytes to spare; and
    /// empty. Every other time there are work numbers to spare.
    fn page(&self, call: Call, n: usize) -> Vec<PageVector> {
        let from = match call(0) {
            Asked::Page(_) => &self.pages[n..=n],
            Asked::From(_) => &self.pages[n..],
        };
        let two = total(&from[..from.len().min(2)]);
        let fronts = [from[0].len(), two, total(from)];
        let mut texts = fronts.map(|text| [text - 1, text]).as_flattened().to_vec();
        texts.extend([0, fronts[2] + 3]);
        // The last page is also the last two, and all that are left.
        texts.sort_unstable();
        texts.dedup();
        let number = call(n as u64 + 1);
        let lents = texts.into_iter().enumerate();
        let lents = lents.map(|(turn, text)| [self.work() + turn % 2, text]);
        lents.map(|lent| self.vector(number, lent)).collect()
    }

    /// Numbers that no page has, one of them by its high half alone, which come before a short
    /// text; and too few work numbers, which come before both.
    fn refusals(&self, call: Call) -> Vec<PageVector> {
        let (work, all) = (self.work(), total(&self.pages));
        let last = self.pages.len() as u64;
        let mut out = vec![
            self.vector(call(0), [work, all]),
            self.vector(call(last + 1), [work + 1, all + 65]),
            self.vector(call((1 << 32) + last), [work, all]),
            self.vector(call(u64::MAX), [work, 0]),
        ];
        if work > 0 {
            out.push(self.vector(call(1), [work - 1, all]));
            out.push(self.vector(call(last), [work - 1, 64]));
            out.push(self.vector(call(last + 1), [work - 1, all]));
            out.push(self.vector(call(0), [0, 0]));
        }
        out
    }
}

/// Pages that are full, lack a line or have one, after none or others: blocks of one instruction,
/// linked in few groups or alone in many, with one exit, two or none.
fn on_edges() -> Vec<File> {
    let of = |blocks, sets, graph, start, strays| {
        let linked = Linked {
            seed: blocks as u64,
            blocks,
            lengths: Lengths::Between(1, 1),
            sets,
            graph,
            start,
            end: None,
            strays,
        };
        linked.file()
    };
    const ROM: u32 = 0x0800_0000;
    const RAM: u32 = 0x0200_0000;
    vec![
        of(59, Sets::Arm, Graph::First, ROM, 0),
        of(60, Sets::Either, Graph::Anywhere, ROM, 50),
        of(61, Sets::Both, Graph::Zigzag, ROM, 10),
        of(120, Sets::Thumb, Graph::Falling, RAM, 20),
        of(121, Sets::Arm, Graph::Stride, ROM, 50),
    ]
}

/// Files made for what they show, and generated ones, each with few blocks; a block alone; counts
/// of one to three digits; and those on the edges of pages.
fn files() -> Vec<File> {
    let counts = Linked {
        seed: 0,
        blocks: 3,
        lengths: Lengths::Listed(&[1, 12, 130]),
        sets: Sets::Arm,
        graph: Graph::First,
        start: 0x0800_0000,
        end: None,
        strays: 0,
    };
    let mut files: Vec<File> = units::files().into_iter().map(|(_, file)| file).collect();
    files.push(build(&[arm(0x0800_0000, &[Record::bx(14)])]));
    files.push(counts.file());
    files.extend(on_edges());
    files
}

fn vectors(call: Call) -> Vec<PageVector> {
    let mut out = vec![];
    for file in files() {
        let file = Paged::new(&file.bytes);
        for n in 0..file.pages.len() {
            out.extend(file.page(call, n));
        }
        out.extend(file.refusals(call));
    }
    // Files that are refused, with enough lent, and with nothing for a page that no file has.
    for copy in damaged_files().chain(cut_files()) {
        let copy = Paged::new(&copy);
        out.push(copy.vector(call(1), [AMPLE_WORK, AMPLE_TEXT]));
        out.push(copy.vector(call(0), [0, 0]));
    }
    out
}

/// Vectors for one page.
pub fn page() -> Vec<PageVector> {
    vectors(Asked::Page)
}

/// Vectors for the pages from one on.
pub fn pages() -> Vec<PageVector> {
    vectors(Asked::From)
}

/// A count, then for each vector the number of the page, its low half before the high one; how many
/// numbers are lent as work, how many bytes for the text and how many work numbers become 0; the
/// numbers of the answer, with 0 pages where the call does not say how many; the length of the
/// file, its bytes, and the text: as many bytes as the answer's length.
pub fn encode_pages(vectors: &[PageVector]) -> Vec<u8> {
    let mut out = vec![];
    push_numbers(&mut out, &[vectors.len() as u64]);
    for v in vectors {
        let e = &v.expected;
        push_numbers(&mut out, &halves(v.asked.number()));
        let lent = [v.work_len, v.text_len, v.cleared];
        push_numbers(&mut out, &lent.map(|n| n as u64));
        let answer = [e.number.into(), e.at, e.count.unwrap_or(0), e.length];
        push_numbers(&mut out, &answer);
        push_file(&mut out, &v.file);
        out.extend_from_slice(v.text.as_bytes());
    }
    out
}
