//! What the calls that measure a unit and write it answer and leave, written from document 01
//! ('Units', 'Where each refusal is found') and document 02 (request 3). The texts themselves come
//! from the original.

use crate::check::{Accepted, Refused};

/// One unit of a file at some wished size.
#[derive(Clone, Debug, PartialEq, Eq)]
pub struct Unit {
    pub text: Vec<u8>,
    /// Blocks that stand in it and in the units before it.
    pub done: u64,
}

/// The lengths that a unit of the whole file reaches after each of its groups, from its units at
/// size 0, which hold a group each but for the last, and the one unit at the largest size.
pub fn reached(each: &[Unit], whole: &Unit) -> Vec<usize> {
    let groups = each.len() - 1;
    let all: usize = each.iter().map(|unit| unit.text.len()).sum();
    // What every unit begins with: it stands in each of them, and in the whole once.
    let Some(front) = (all - whole.text.len()).checked_div(groups) else {
        return vec![];
    };
    let mut length = front;
    let reached = each[..groups].iter().map(|unit| {
        length += unit.text.len() - front;
        length
    });
    reached.collect()
}

/// What measuring tells of a unit, and what writing takes back, as the C interface has it.
#[derive(Clone, Copy, Debug, Default, PartialEq, Eq)]
pub struct Told {
    /// The unit's number.
    pub unit: u64,
    /// Bytes of its text.
    pub length: u64,
    /// Blocks that stand in it and in the units before it.
    pub done: u64,
    /// 1 for the last unit, 0 for the others.
    pub last: u64,
}

/// What must be told of unit `unit` of these, if there is one.
pub fn told(units: &[Unit], unit: u64) -> Option<Told> {
    let named = usize::try_from(unit).ok().and_then(|n| units.get(n))?;
    Some(Told {
        unit,
        length: named.text.len() as u64,
        done: named.done,
        last: (unit + 1 == units.len() as u64) as u64,
    })
}

/// The answer of the call that measures; on refusal all that it tells is 0.
#[derive(Clone, Copy, Debug, PartialEq, Eq)]
pub struct MeasureNumbers {
    /// The refusal's number, 0 for a unit.
    pub number: u32,
    pub at: u64,
    pub told: Told,
}

/// What the call that measures answers and leaves in the lent work numbers, all else in them being
/// as it was.
#[derive(Clone, Copy, Debug, PartialEq, Eq)]
pub struct Measured {
    pub numbers: MeasureNumbers,
    /// So many work numbers have become 0, from the first on.
    pub cleared: usize,
}

/// The answer of the call that writes, the text itself apart.
#[derive(Clone, Copy, Debug, PartialEq, Eq)]
pub struct WriteNumbers {
    /// The refusal's number, 0 for a unit.
    pub number: u32,
    pub at: u64,
}

/// What the call that writes answers and leaves in the lent buffers, all else in them being as it
/// was.
#[derive(Clone, Copy, Debug, PartialEq, Eq)]
pub struct Written<'a> {
    pub numbers: WriteNumbers,
    /// So many work numbers have become 0, from the first on.
    pub cleared: usize,
    /// What stands at the front of the text buffer.
    pub front: &'a [u8],
}

/// The unit that a call names, where none of 1 to 9 applies, and how many work numbers it uses.
struct Found<'a> {
    told: Told,
    text: &'a [u8],
    used: usize,
}

/// A refusal, and how many work numbers have become 0 at it.
struct Refusal {
    number: u32,
    at: u64,
    cleared: usize,
}

/// What either call looks at first, in this order: the file, the work numbers, the unit's number.
fn find(
    checked: Result<Accepted, Refused>,
    units: &[Unit],
    unit: u64,
    work_len: usize,
) -> Result<Found<'_>, Refusal> {
    let refused = |number, at, cleared| {
        Err(Refusal {
            number,
            at,
            cleared,
        })
    };
    let used = match checked {
        Err(refusal) => return refused(refusal.number, refusal.at, 0),
        Ok(counts) => 4 * counts.blocks as usize,
    };
    if work_len < used {
        return refused(8, 0, 0);
    }
    let Some(told) = told(units, unit) else {
        return refused(9, 0, used);
    };
    let text = &units[unit as usize].text;
    Ok(Found { told, text, used })
}

/// What must come of measuring unit `unit` of a file with this answer of the check and, if
/// accepted, these units, with so many work numbers lent.
pub fn measured(
    checked: Result<Accepted, Refused>,
    units: &[Unit],
    unit: u64,
    work_len: usize,
) -> Measured {
    let (number, at, told, cleared) = match find(checked, units, unit, work_len) {
        Ok(found) => (0, 0, found.told, found.used),
        Err(refusal) => (refusal.number, refusal.at, Told::default(), refusal.cleared),
    };
    Measured {
        numbers: MeasureNumbers { number, at, told },
        cleared,
    }
}

/// What must come of writing the unit of which this was told, likewise, with so many work numbers
/// and bytes of text lent.
pub fn written(
    checked: Result<Accepted, Refused>,
    units: &[Unit],
    told: Told,
    [work_len, text_len]: [usize; 2],
) -> Written<'_> {
    let answer = |number, at, cleared, front| Written {
        numbers: WriteNumbers { number, at },
        cleared,
        front,
    };
    let found = match find(checked, units, told.unit, work_len) {
        Ok(found) => found,
        Err(refusal) => return answer(refusal.number, refusal.at, refusal.cleared, &[]),
    };
    // The unit's number is the same: the unit was found by it.
    if told != found.told {
        return answer(11, 0, found.used, &[]);
    }
    if text_len < found.text.len() {
        return answer(10, 0, found.used, &[]);
    }
    answer(0, 0, found.used, found.text)
}
