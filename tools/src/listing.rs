//! The listing of a block file, written from document 01 ('Small files and their text').

use crate::check::{Accepted, Refused};
use std::fmt::Write;

/// What a line says of a block beside its group.
#[derive(Clone, Debug, PartialEq, Eq)]
pub struct Row {
    pub key: u32,
    pub exits: Vec<u32>,
}

/// A header, then a line for each block in file order. The plan has group and block index.
pub fn text(rows: &[Row], plan: &[[u32; 2]]) -> String {
    let mut groups = vec![None; rows.len()];
    for &[group, block] in plan {
        groups[block as usize] = Some(group);
    }
    let mut text = String::from("key group exits\n");
    for (row, group) in rows.iter().zip(groups) {
        let group = group.expect("every block has a group");
        push(&mut text, format_args!("{:08x} {group}", row.key));
        for exit in &row.exits {
            push(&mut text, format_args!(" {exit:08x}"));
        }
        text.push_str(if row.exits.is_empty() { " -\n" } else { "\n" });
    }
    text
}

fn push(text: &mut String, more: std::fmt::Arguments) {
    text.write_fmt(more).expect("a string takes all");
}

/// The answer for a listing as the C interface gives it, the text itself apart.
#[derive(Clone, Copy, Debug, Default, PartialEq, Eq)]
pub struct ListingNumbers {
    /// The refusal's number, 0 for a listing.
    pub number: u32,
    pub at: u64,
    pub length: u64,
}

/// What a call answers and leaves in the lent buffers, all else in them being as it was.
#[derive(Clone, Copy, Debug, Default, PartialEq, Eq)]
pub struct Outcome<'a> {
    pub numbers: ListingNumbers,
    /// So many work numbers have become 0, from the first on.
    pub cleared: usize,
    /// What stands at the front of the text buffer.
    pub front: &'a [u8],
}

/// What must come of a file with this answer of the check and, if accepted, this text, with so many
/// work numbers and bytes of text lent.
pub fn outcome<'a>(
    checked: Result<Accepted, Refused>,
    text: &'a [u8],
    [work_len, text_len]: [usize; 2],
) -> Outcome<'a> {
    let refused = |number, at, cleared| Outcome {
        numbers: ListingNumbers {
            number,
            at,
            length: 0,
        },
        cleared,
        front: &[],
    };
    let needed = match checked {
        Err(refusal) => return refused(refusal.number, refusal.at, 0),
        Ok(counts) => 4 * counts.blocks as usize,
    };
    if work_len < needed {
        return refused(8, 0, 0);
    }
    if text_len < text.len() {
        return refused(10, 0, needed);
    }
    let numbers = ListingNumbers {
        length: text.len() as u64,
        ..ListingNumbers::default()
    };
    Outcome {
        numbers,
        cleared: needed,
        front: text,
    }
}
