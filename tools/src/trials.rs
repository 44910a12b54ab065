//! The generated files that exits, plan, listing, pages, sentences and units are compared on.

use crate::file::File;
use crate::generate::closings::{self, Closings};
use crate::generate::forms::Forms;
use crate::generate::linked::{Graph, Linked};
use crate::generate::shells::Shells;
use crate::generate::transfers::Transfers;
use crate::generate::{self, Lengths, Params};

/// What a file is made from; printed, it names the file.
#[derive(Clone, Copy, Debug)]
pub enum Trial {
    Scattered(Params),
    Linked(Linked),
    Closings(Closings),
    Forms(Forms),
    Shells(Shells),
    Transfers(Transfers),
}

impl Trial {
    pub fn file(&self) -> File {
        match self {
            Trial::Scattered(params) => generate::file(params),
            Trial::Linked(linked) => linked.file(),
            Trial::Closings(closings) => closings.file(),
            Trial::Forms(forms) => forms.file(),
            Trial::Shells(shells) => shells.file(),
            Trial::Transfers(transfers) => transfers.file(),
        }
    }
}

/// Small files unless told otherwise.
pub const FILES: u64 = 6_000;

/// A block for every closing, then `files` small files from seed `first` on.
pub fn small(files: u64, first: u64) -> impl Iterator<Item = Trial> {
    let seeds = first..first + files;
    let small = seeds.map(|seed| match seed % 2 {
        0 => Trial::Scattered(Params::small(seed)),
        _ => Trial::Linked(Linked::small(seed)),
    });
    closings::all().map(Trial::Closings).chain(small)
}

/// Components at the limit of a part and long blocks, then files with as many blocks as there may
/// be, some of them with as many instructions.
pub fn large(first: u64) -> impl Iterator<Item = Trial> {
    let seeds = move |n| first..first + n;
    let parts = seeds(40).map(|s| Trial::Scattered(Params::components(s)));
    let long = seeds(20).map(|s| Trial::Scattered(Params::long(s)));
    let limit = seeds(60).map(|s| Trial::Linked(Linked::limit(s)));
    parts.chain(long).chain(limit).chain(largest(first))
}

/// `files` files with components at the limit of a part, some with longer blocks.
pub fn limits(files: u64, first: u64) -> impl Iterator<Item = Trial> {
    (first..first + files).map(|seed| match seed % 5 {
        0 | 1 => Trial::Scattered(Params::components(seed)),
        2 => Trial::Scattered(Params::long(seed)),
        _ => Trial::Linked(Linked::limit(seed)),
    })
}

/// So many blocks that the last page of the plan, after none or a few others, has one line, is full
/// or lacks one line.
const ON_PAGES: [usize; 12] = [1, 59, 60, 61, 119, 120, 121, 179, 180, 181, 600, 601];

/// `files` files at the edges of pages: half of them linked, half of them scattered, which have
/// some blocks fewer where a key was drawn twice.
pub fn on_pages(files: u64, first: u64) -> impl Iterator<Item = Trial> {
    (first..first + files).map(|seed| {
        let blocks = ON_PAGES[seed as usize / 2 % ON_PAGES.len()];
        match seed % 2 {
            0 => Trial::Linked(Linked {
                blocks,
                ..Linked::small(seed)
            }),
            _ => Trial::Scattered(Params {
                blocks,
                ..Params::small(seed)
            }),
        }
    })
}

/// `files` files with many shells.
pub fn shells(files: u64, first: u64) -> impl Iterator<Item = Trial> {
    (first..first + files).map(|seed| Trial::Shells(Shells { seed }))
}

/// Files with as many blocks as there may be.
pub fn largest(first: u64) -> impl Iterator<Item = Trial> {
    let seeds = move |n| first..first + n;
    let chains = seeds(4).map(|s| Trial::Scattered(Params::chain(s)));
    let regions = seeds(4).map(|s| Trial::Scattered(Params::largest(s)));
    let linked = seeds(32).map(|s| Trial::Linked(Linked::large(s)));
    chains.chain(regions).chain(linked)
}

/// The largest files that calls are timed on, by name.
pub fn timed() -> [(&'static str, Trial); 5] {
    let linked = |graph, lengths| {
        Trial::Linked(Linked {
            lengths,
            ..Linked::most(0, graph)
        })
    };
    let short = Lengths::Between(1, 2);
    // As many instructions as the most blocks may have together.
    let mean = Lengths::Mean(16);
    [
        ("all regions", Trial::Scattered(Params::largest(1))),
        (
            "rising chain, most instructions",
            linked(Graph::Rising, mean),
        ),
        ("rising chain", linked(Graph::Rising, short)),
        ("falling chain", linked(Graph::Falling, short)),
        ("first block again and again", linked(Graph::First, short)),
    ]
}

/// The file with the most text that calls are timed on, over a gigabyte of it, by name.
pub fn most_text() -> (&'static str, Trial) {
    ("block transfers", Trial::Transfers(Transfers::most()))
}
