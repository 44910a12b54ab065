//! The library's sentences, and the model's fates, against the original's text. Which calls of the
//! interpreter there are shells is told by the text's shape alone.

use super::calls::{Said, Sort};
use super::{Side, Tally};
use crate::library;
use recomp_tools::file::RECORD;
use recomp_tools::model;
use recomp_tools::reasons::{self, Asked, Fate, Instruction, Sentence};
use recomp_tools::shells::{printed, Front, Printed};
use recomp_tools::units::Unit;
use std::collections::HashMap;
use std::ops::Range;

/// Longer than any sentence.
const SENTENCE: usize = 64;

/// A block of a file, and what its text must have by the fates of its instructions.
struct Block {
    key: u32,
    instructions: Range<u64>,
    whole: bool,
    /// The costs of its native instructions together.
    cycles: u64,
}

fn blocks(file: &[u8]) -> Vec<Block> {
    let mut blocks: Vec<Block> = vec![];
    let told = model::blocks(file).into_iter().zip(reasons::blocks(file));
    for ((block, own), (_, records)) in told.zip(model::records(file)) {
        let first = blocks.last().map_or(0, |before| before.instructions.end);
        blocks.push(Block {
            key: block.key(),
            instructions: first..first + own.len() as u64,
            whole: own[0].fate == Fate::LeftWhole,
            cycles: cycles(&own, records),
        });
    }
    blocks
}

fn cycles(own: &[Instruction], records: &[[u8; RECORD]]) -> u64 {
    let cost = |record: &[u8; RECORD]| u16::from_le_bytes([record[2], record[3]]);
    let native = own.iter().zip(records);
    let native = native.filter(|(told, _)| told.fate == Fate::Native);
    native.map(|(_, record)| u64::from(cost(record))).sum()
}

/// The address that a line of the library's says, none where it is no sentence.
fn address(line: &str) -> Option<u32> {
    Sentence::read(line).map(|said| said.address)
}

/// The address in the sentence of an instruction, by the call for one.
fn said_of(file: &[u8], instruction: u64) -> Option<u32> {
    let mut text = [0; SENTENCE];
    let answer = library::reasons(file, Asked::One(instruction), &mut text);
    let sentence = text.get(..answer.length as usize)?;
    address(std::str::from_utf8(sentence).ok()?)
}

/// The addresses in all sentences of a file, by the call for many.
fn said_in(file: &Said) -> Vec<u32> {
    let mut text = vec![0; file.length()];
    library::reasons(file.bytes, Asked::From(0), &mut text);
    let text = String::from_utf8_lossy(&text);
    text.lines().filter_map(address).collect()
}

impl Tally {
    fn differs(&mut self, file: &Said, what: &str) {
        self.mismatch(Side::Original, file, what);
    }

    /// Holds the sentences of a file that is accepted against the original's units.
    pub fn hold_against(&mut self, file: &Said, units: &[Unit]) {
        let printed = |unit: &Unit| printed(&String::from_utf8_lossy(&unit.text));
        let blocks: Result<Vec<_>, String> = units.iter().map(printed).collect();
        match blocks {
            Ok(blocks) => self.hold_blocks(file, blocks.concat()),
            Err(lines) => self.differs(file, &format!("no known shape:\n{lines}")),
        }
    }

    fn hold_blocks(&mut self, file: &Said, text: Vec<Printed>) {
        let (printed, blocks) = (text.len(), blocks(file.bytes));
        self.blocks += printed;
        if printed != blocks.len() {
            self.differs(file, &format!("{printed} blocks in the text"));
        }
        let mut by_key: HashMap<u32, Printed> = text.into_iter().map(|b| (b.key, b)).collect();
        let mut shells = vec![];
        for block in blocks {
            let Some(printed) = by_key.remove(&block.key) else {
                self.differs(file, &format!("no block {:08x} in the text", block.key));
                continue;
            };
            self.hold_block(file, &block, &printed);
            shells.extend(printed.shells);
        }
        self.shells += shells.len();
        if said_in(file) != shells {
            self.differs(
                file,
                "the addresses of all lines are not those of the shells",
            );
        }
    }

    fn hold_block(&mut self, file: &Said, block: &Block, printed: &Printed) {
        let whole = printed.front == Front::Interpreter;
        if (whole, printed.cycles) != (block.whole, block.cycles) {
            let expected = (block.whole, block.cycles);
            self.differs(file, &format!("{printed:?}, by the fates {expected:?}"));
        }
        // Each call checks the whole file.
        if file.sort == Sort::Large {
            return;
        }
        let said = block.instructions.clone();
        let said: Vec<u32> = said.filter_map(|n| said_of(file.bytes, n)).collect();
        if said != printed.shells {
            self.differs(file, &format!("{printed:?}, by the sentences {said:08x?}"));
        }
    }
}
