//! Why the interpreter took instructions: the sentence of one of them, and all sentences, as many a
//! call as what is lent holds.

use crate::lent::{zeros, NoResult};
use crate::library::{self, Refused};

/// Bytes that no line exceeds: the address (8), a blank, the longest name of a kind, ThumbBlHigh
/// (11), a blank, the longest reason, as `PC as result or stored register` (31), and a newline. No
/// kind has both, so that there is always more room than lines take.
const LINE: usize = 8 + 1 + 11 + 1 + 31 + 1;

/// The line of instruction `instruction`, from 0, if it has a sentence.
pub fn line(file: &[u8], instruction: u64) -> Result<Option<Vec<u8>>, Refused> {
    // The call changes no byte behind the sentence, so that a newline stands there.
    let mut text = [b'\n'; LINE];
    let length = library::reason(file, instruction, &mut text[..LINE - 1])? as usize;
    Ok((length > 0).then(|| text[..=length].to_vec()))
}

pub struct Reasons<'a> {
    file: &'a [u8],
    instructions: u64,
    text: Vec<u8>,
    /// The first instruction whose line was not handed out.
    next: u64,
}

impl<'a> Reasons<'a> {
    /// Has the file checked, and makes room for a line for each instruction, so that one call gives
    /// them all.
    pub fn new(file: &'a [u8]) -> Result<Reasons<'a>, NoResult> {
        let counts = library::check(file).map_err(NoResult::Refused)?;
        Ok(Reasons {
            file,
            instructions: counts.instructions,
            text: zeros(LINE * counts.instructions as usize)?,
            next: 0,
        })
    }

    /// How many instructions the file has.
    pub fn instructions(&self) -> u64 {
        self.instructions
    }

    /// The next lines, as many as one call gives; nothing after the last instruction.
    pub fn hand_out(&mut self) -> Result<Option<&[u8]>, NoResult> {
        if self.next == self.instructions {
            return Ok(None);
        }
        let made = library::reasons(self.file, self.next, &mut self.text);
        let made = made.map_err(NoResult::Refused)?;
        self.next = made.next;
        Ok(Some(&self.text[..made.length as usize]))
    }
}

#[cfg(test)]
mod tests {
    use super::*;
    use recomp_tools::file::{build, Block};
    use recomp_tools::record::{Offset, Record};

    /// A block in ROM with these records.
    fn file(records: Vec<Record>) -> Vec<u8> {
        let block = Block {
            address: 0x0800_0000,
            thumb: false,
            code: None,
            records,
        };
        build(&[block]).bytes
    }

    #[test]
    fn a_bound_of_the_longest_names() {
        let [kind, reason] = ["ThumbBlHigh", "PC as result or stored register"];
        assert_eq!(LINE, format!("08000000 {kind} {reason}\n").len());
        assert_eq!(LINE, 53);
    }

    const SWI: &str = " Swi no native form\n";
    const MEM: &str = " Mem PC as result or stored register\n";

    /// Lines of 28, 45, 28 and 28 bytes, with a native instruction before each.
    fn with_four_lines() -> (Vec<u8>, String) {
        let native = Record::mul(false, false, 0, 0, 1, 2);
        let swi = Record::swi([0; 12]);
        let store = Record::mem(0, 2, 15, 0, Offset::Value(0));
        let records = [swi, store, swi, swi].map(|record| [native, record]);
        let lines = ["04", "0c", "14", "1c"].into_iter();
        let lines = lines.zip([SWI, MEM, SWI, SWI]);
        let lines = lines.map(|(address, words)| format!("080000{address}{words}"));
        (file(records.concat()), lines.collect())
    }

    /// The bytes that each call gives where so many are lent, and all of them.
    fn handed_out(file: &[u8], room: usize) -> Result<(Vec<usize>, Vec<u8>), NoResult> {
        let mut reasons = Reasons::new(file)?;
        reasons.text = zeros(room)?;
        let (mut calls, mut all) = (vec![], vec![]);
        while let Some(lines) = reasons.hand_out()? {
            calls.push(lines.len());
            all.extend_from_slice(lines);
        }
        Ok((calls, all))
    }

    #[test]
    fn one_call_gives_all_lines() {
        let (file, expected) = with_four_lines();
        let mut reasons = Reasons::new(&file).expect("memory");
        assert_eq!((reasons.instructions(), reasons.text.len()), (8, 8 * 53));
        assert_eq!(reasons.hand_out(), Ok(Some(expected.as_bytes())));
        assert_eq!(reasons.hand_out(), Ok(None));
    }

    #[test]
    fn no_call_is_made_where_there_are_no_instructions() {
        assert_eq!(handed_out(&build(&[]).bytes, 0), Ok((vec![], vec![])));
    }

    #[test]
    fn one_call_finds_that_there_are_no_lines() {
        let native = file(vec![Record::bx(14)]);
        for room in [0, 53] {
            assert_eq!(handed_out(&native, room), Ok((vec![0], vec![])));
        }
    }

    #[test]
    fn calls_go_on_after_the_lines_that_fit() {
        let (file, expected) = with_four_lines();
        let cases: [(usize, &[usize]); 7] = [
            (45, &[28, 45, 28, 28]),
            (56, &[28, 45, 56]),
            (72, &[28, 45, 56]),
            (73, &[73, 56]),
            (100, &[73, 56]),
            (128, &[101, 28]),
            (129, &[129]),
        ];
        for (room, calls) in cases {
            let all = expected.clone().into_bytes();
            assert_eq!(handed_out(&file, room), Ok((calls.to_vec(), all)));
        }
    }

    #[test]
    fn a_text_too_short_for_a_line_is_said() {
        let (file, _) = with_four_lines();
        let short = NoResult::Refused(Refused { number: 10, at: 0 });
        for room in [0, 27, 28, 44] {
            assert_eq!(handed_out(&file, room), Err(short));
        }
    }

    #[test]
    fn one_line_is_one_of_all() {
        let (file, expected) = with_four_lines();
        let mut lines = vec![];
        for instruction in 0..8 {
            let line = line(&file, instruction).expect("an instruction");
            assert_eq!(line.is_some(), instruction % 2 == 1);
            lines.extend(line.unwrap_or_default());
        }
        assert_eq!(lines, expected.as_bytes());
        assert_eq!(line(&file, 8), Err(Refused { number: 9, at: 0 }));
    }
}
