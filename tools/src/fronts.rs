//! What the calls for the units from a given one on and for their lengths answer and leave, written from
//! include/recomp.h. The texts themselves come from the original.

use crate::check::{Accepted, Refused};
use crate::units::Unit;

/// The answer of either call as the C interface gives it, texts and lengths apart.
#[derive(Clone, Copy, Debug, PartialEq, Eq)]
pub struct FrontNumbers {
    /// The refusal's number, 0 for units.
    pub number: u32,
    pub at: u64,
    /// How many units or lengths there are.
    pub count: u64,
    /// Bytes of the texts in all, which the call for lengths does not say.
    pub length: Option<u64>,
    /// Blocks that stand in these units and in those before them.
    pub done: u64,
    /// 1 if the last of them is the file's, else 0.
    pub last: u64,
}

/// How much is lent.
#[derive(Clone, Copy, Debug, PartialEq, Eq)]
pub struct Lent {
    /// Work numbers.
    pub work: usize,
    /// Bytes of text; the call for lengths is lent none.
    pub text: Option<usize>,
    /// Places for a length.
    pub lengths: usize,
}

/// What a call answers and leaves in the lent buffers, all else in them being as it was.
#[derive(Clone, Copy, Debug, PartialEq, Eq)]
pub struct Outcome<'a> {
    pub numbers: FrontNumbers,
    /// So many work numbers have become 0, from the first on.
    pub cleared: usize,
    /// The units whose texts and lengths stand at the fronts, none on refusal.
    pub units: &'a [Unit],
}

/// The bytes of some units in all.
pub fn total(units: &[Unit]) -> usize {
    units.iter().map(|unit| unit.text.len()).sum()
}

/// The longest front of these units that fits what is lent.
fn fitting(units: &[Unit], lent: Lent) -> &[Unit] {
    let places = units.len().min(lent.lengths);
    let fits = |&count: &usize| lent.text.is_none_or(|room| total(&units[..count]) <= room);
    &units[..(1..=places).take_while(fits).count()]
}

/// What must come of the call for the units from `first` on, of a file with this answer of the
/// check and, if accepted, these units, with so much lent.
pub fn outcome<'a>(
    checked: Result<Accepted, Refused>,
    units: &'a [Unit],
    first: u64,
    lent: Lent,
) -> Outcome<'a> {
    let refused = |number, at, cleared| Outcome {
        numbers: FrontNumbers {
            number,
            at,
            count: 0,
            length: lent.text.map(|_| 0),
            done: 0,
            last: 0,
        },
        cleared,
        units: &[],
    };
    let needed = match checked {
        Err(refusal) => return refused(refusal.number, refusal.at, 0),
        Ok(counts) => 4 * counts.blocks as usize,
    };
    if lent.work < needed {
        return refused(8, 0, 0);
    }
    let named = usize::try_from(first).ok().and_then(|n| units.get(n..));
    let Some(from @ [_, ..]) = named else {
        return refused(9, 0, needed);
    };
    let made = fitting(from, lent);
    let Some(end) = made.last() else {
        return refused(10, 0, needed);
    };
    let numbers = FrontNumbers {
        number: 0,
        at: 0,
        count: made.len() as u64,
        length: lent.text.map(|_| total(made) as u64),
        done: end.done,
        last: (made.len() == from.len()) as u64,
    };
    Outcome {
        numbers,
        cleared: needed,
        units: made,
    }
}
