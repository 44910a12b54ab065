//! The plan on pages, written from document 02 (request 1), and what the calls for one page and for
//! the pages from a given one on answer and leave.

use crate::check::{Accepted, Refused};
use crate::listing::Row;

/// So many blocks make a page.
const BLOCKS: usize = 60;

/// Characters of a line, its newline apart.
const WIDTH: usize = 64;

/// The column up to which a line has fields; blanks come after it.
const FIELDS: usize = 40;

/// The pages, the first of which is page 1. Keys with exits and the counts of instructions are in
/// file order; the plan has group and block index in emission order, which is that of the lines.
pub fn texts(rows: &[Row], counts: &[u32], plan: &[[u32; 2]]) -> Vec<String> {
    let line = |&[group, block]: &[u32; 2]| {
        let block = block as usize;
        line(&rows[block], group, counts[block])
    };
    let page = |(number, blocks): (u64, &[[u32; 2]])| {
        let lines = blocks.iter().map(line);
        std::iter::once(format!("{number:>WIDTH$}\n"))
            .chain(lines)
            .collect()
    };
    (1..).zip(plan.chunks(BLOCKS)).map(page).collect()
}

fn line(row: &Row, group: u32, count: u32) -> String {
    let exits: Vec<String> = row.exits.iter().map(|key| format!("{key:08x}")).collect();
    let exits = exits.join(" ");
    let fields = format!("{:08x} {group:>6} {count:>6} {exits}", row.key);
    // A field that did not fit would have pushed the others on.
    assert!(fields.len() <= FIELDS, "{fields}");
    format!("{fields:<WIDTH$}\n")
}

/// What a call asks for.
#[derive(Clone, Copy, Debug, PartialEq, Eq)]
pub enum Asked {
    /// The page of this number.
    Page(u64),
    /// The pages from this number on, as many whole ones as fit.
    From(u64),
}

impl Asked {
    pub fn number(self) -> u64 {
        match self {
            Asked::Page(number) | Asked::From(number) => number,
        }
    }
}

/// The answer of either call as the C interface gives it, the text itself apart.
#[derive(Clone, Copy, Debug, PartialEq, Eq)]
pub struct PageNumbers {
    /// The refusal's number, 0 for pages.
    pub number: u32,
    pub at: u64,
    /// How many pages there are, which the call for one does not say.
    pub count: Option<u64>,
    /// Bytes of the pages in all.
    pub length: u64,
}

/// What a call answers and leaves in the lent buffers, all else in them being as it was.
#[derive(Clone, Copy, Debug, PartialEq, Eq)]
pub struct Outcome<'a> {
    pub numbers: PageNumbers,
    /// So many work numbers have become 0, from the first on.
    pub cleared: usize,
    /// The pages that stand one after another at the front of the text, none on refusal.
    pub pages: &'a [String],
}

/// The bytes of some pages in all.
pub fn total(pages: &[String]) -> usize {
    pages.iter().map(String::len).sum()
}

/// The longest front of these pages that fits so many bytes.
fn fitting(pages: &[String], mut room: usize) -> &[String] {
    let fits = |page: &&String| {
        let left = room.checked_sub(page.len());
        room = left.unwrap_or(room);
        left.is_some()
    };
    &pages[..pages.iter().take_while(fits).count()]
}

/// The pages that a call may write: from the one that is named on, or that one alone.
fn named(pages: &[String], asked: Asked) -> &[String] {
    let before = asked.number().checked_sub(1);
    let before = before.and_then(|n| usize::try_from(n).ok());
    let from = before.and_then(|n| pages.get(n..)).unwrap_or(&[]);
    match asked {
        Asked::Page(_) => &from[..from.len().min(1)],
        Asked::From(_) => from,
    }
}

/// What must come of a call on a file with this answer of the check and, if accepted, these pages,
/// with so many work numbers and bytes of text lent.
pub fn outcome<'a>(
    checked: Result<Accepted, Refused>,
    pages: &'a [String],
    asked: Asked,
    [work_len, text_len]: [usize; 2],
) -> Outcome<'a> {
    let counted = |count| match asked {
        Asked::Page(_) => None,
        Asked::From(_) => Some(count),
    };
    let refused = |number, at, cleared| Outcome {
        numbers: PageNumbers {
            number,
            at,
            count: counted(0),
            length: 0,
        },
        cleared,
        pages: &[],
    };
    let needed = match checked {
        Err(refusal) => return refused(refusal.number, refusal.at, 0),
        Ok(counts) => 4 * counts.blocks as usize,
    };
    if work_len < needed {
        return refused(8, 0, 0);
    }
    let named = named(pages, asked);
    if named.is_empty() {
        return refused(9, 0, needed);
    }
    let made = fitting(named, text_len);
    if made.is_empty() {
        return refused(10, 0, needed);
    }
    let numbers = PageNumbers {
        number: 0,
        at: 0,
        count: counted(made.len() as u64),
        length: total(made) as u64,
    };
    Outcome {
        numbers,
        cleared: needed,
        pages: made,
    }
}
