//! What calls are lent: the file, read once, work numbers for all its blocks, and room for what
//! they make.

use crate::library::{self, Counts, Refused};
use std::alloc::{alloc_zeroed, Layout};

/// Why a call gave nothing.
#[derive(Clone, Copy, Debug, PartialEq, Eq)]
pub enum NoResult {
    Refused(Refused),
    /// So many bytes could not be had.
    NoMemory(usize),
}

/// The refusal for a text that does not fit.
const SHORT: u32 = 10;

/// Bytes that are lent for a listing at first.
const FIRST: usize = 1 << 16;

/// An accepted file with the work numbers for its calls.
pub struct Lent<'a> {
    pub file: &'a [u8],
    pub counts: Counts,
    pub work: Vec<u32>,
}

impl<'a> Lent<'a> {
    /// Has the file checked, and makes room for its blocks.
    pub fn new(file: &'a [u8]) -> Result<Lent<'a>, NoResult> {
        let counts = library::check(file).map_err(NoResult::Refused)?;
        Ok(Lent {
            file,
            counts,
            work: zeros(4 * counts.blocks as usize)?,
        })
    }

    /// Group and block of each row, in emission order.
    pub fn plan(&mut self) -> Result<Vec<u32>, NoResult> {
        let mut plan = zeros(2 * self.counts.blocks as usize)?;
        library::plan(self.file, &mut self.work, &mut plan).map_err(NoResult::Refused)?;
        Ok(plan)
    }

    pub fn listing(&mut self) -> Result<Vec<u8>, NoResult> {
        let mut text = zeros(FIRST)?;
        let call = |text: &mut [u8]| library::listing(self.file, &mut self.work, text);
        let length = growing(&mut text, call)?;
        text.truncate(length as usize);
        Ok(text)
    }
}

/// Calls again with twice the text as long as it is too short.
fn growing<A>(
    text: &mut Vec<u8>,
    mut call: impl FnMut(&mut [u8]) -> Result<A, Refused>,
) -> Result<A, NoResult> {
    loop {
        match call(text) {
            Err(refused) if refused.number == SHORT => {
                let length = text.len();
                // What was lent is given back before more is asked for.
                *text = Vec::new();
                *text = zeros(length.saturating_mul(2))?;
            }
            answer => return answer.map_err(NoResult::Refused),
        }
    }
}

/// Numbers that are 0 where all their bytes are.
pub trait Number {}

impl Number for u8 {}
impl Number for u32 {}
impl Number for u64 {}

/// So many zeros. Where the system gives memory that is zero, none of it is written here, so that
/// as much of it is taken as calls write to.
pub fn zeros<N: Number>(count: usize) -> Result<Vec<N>, NoResult> {
    let none = NoResult::NoMemory(count.saturating_mul(size_of::<N>()));
    let layout = Layout::array::<N>(count).map_err(|_| none)?;
    if layout.size() == 0 {
        return Ok(Vec::new());
    }
    // SAFETY: the size is not 0. What is handed over was made for so many numbers, each of which is
    // 0, and nothing else holds it.
    unsafe {
        let made = alloc_zeroed(layout).cast::<N>();
        if made.is_null() {
            return Err(none);
        }
        Ok(Vec::from_raw_parts(made, count, count))
    }
}

#[cfg(test)]
mod tests {
    use super::*;

    fn refused(number: u32) -> Result<usize, Refused> {
        Err(Refused { number, at: 0 })
    }

    #[test]
    fn a_short_text_doubles_until_it_holds_all() {
        let mut text = vec![0; 3];
        let mut lent = vec![];
        let call = |text: &mut [u8]| {
            lent.push(text.len());
            if text.len() < 20 {
                refused(10)
            } else {
                Ok(text.len())
            }
        };
        assert_eq!(growing(&mut text, call), Ok(24));
        assert_eq!(lent, [3, 6, 12, 24]);
    }

    #[test]
    fn other_refusals_are_handed_on() {
        for number in [1, 7, 8, 9] {
            let said = growing(&mut vec![0; 3], |_| refused(number));
            assert_eq!(said, Err(NoResult::Refused(Refused { number, at: 0 })));
        }
    }

    #[test]
    fn zeros_are_as_many_as_were_asked_for() {
        for count in [0, 1, 7, 100_000] {
            assert_eq!(zeros::<u64>(count), Ok(vec![0; count]));
        }
    }

    #[test]
    fn memory_that_cannot_be_had_is_said() {
        for count in [usize::MAX / 4, usize::MAX] {
            let said = zeros::<u32>(count);
            assert_eq!(said, Err(NoResult::NoMemory(count.saturating_mul(4))));
        }
    }
}
