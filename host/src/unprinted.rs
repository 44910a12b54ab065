//! The instructions of an accepted file that the text of their blocks does not print, read off the
//! file's records: the library has no call for them. docs/SPECIFICATION.md has the records ('The
//! block file') and says what is dropped ('The text of a block').

use std::ops::Range;

/// A block record or an instruction record.
type Record = [u8; 16];

/// Why an instruction is not printed.
#[derive(Clone, Copy, Debug, PartialEq, Eq)]
pub enum Why {
    /// Its block is outside ROM and BIOS and has no code bytes, so that the block is left whole to
    /// the interpreter.
    Deferred,
    /// It stands behind an unconditional native exit of its block.
    Dropped,
}

/// Numbers of instructions in the file, one after another, that are not printed for one cause.
#[derive(Clone, Debug, PartialEq, Eq)]
pub struct Unprinted {
    pub numbers: Range<u64>,
    pub why: Why,
}

/// Of each block those that are not printed, none of most blocks.
pub fn unprinted(file: &[u8]) -> impl Iterator<Item = Unprinted> + '_ {
    let (mut instructions, blocks) = records(file);
    let mut end = 0;
    blocks.iter().map(move |block| {
        let own = instructions.split_off(..word(block, 2) as usize);
        let own = own.expect("the counts sum to the number of instructions");
        let first = end;
        end += own.len() as u64;
        let (printed, why) = front(block, own);
        Unprinted {
            numbers: first + printed as u64..end,
            why,
        }
    })
}

/// Why this instruction is not printed, if it is not.
pub fn why(file: &[u8], instruction: u64) -> Option<Why> {
    let mut all = unprinted(file);
    let found = all.find(|some| some.numbers.contains(&instruction));
    found.map(|some| some.why)
}

/// The instruction records and the block records.
fn records(file: &[u8]) -> (&[Record], &[Record]) {
    let (front, trailer) = file.split_last_chunk::<32>().expect("a trailer");
    let [instructions, code] = [4, 6].map(|place| word(trailer, place) as usize);
    let (records, _) = front[code..].as_chunks();
    records.split_at(instructions)
}

fn word(bytes: &[u8], place: usize) -> u32 {
    let four = bytes[4 * place..][..4].try_into();
    u32::from_le_bytes(four.expect("four bytes"))
}

/// How many instructions of a block are printed, which are its first ones, and why no more are.
fn front(block: &Record, instructions: &[Record]) -> (usize, Why) {
    const BYTES_PRESENT: u32 = 2;
    let region = word(block, 0) >> 24 & 15;
    let is_fixed = matches!(region, BIOS | ROM);
    if !is_fixed && word(block, 1) & BYTES_PRESENT == 0 {
        return (0, Why::Deferred);
    }
    let end = |at: usize| exit(region, &instructions[at..]).map(|length| at + length);
    let end = (0..instructions.len()).find_map(end);
    (end.unwrap_or(instructions.len()), Why::Dropped)
}

const BIOS: u32 = 0;
const ROM: u32 = 8;

/// Bytes of an instruction record, and what they hold.
const KIND: usize = 0;
const CONDITION: usize = 1;
const ALWAYS: u8 = 14;
const BX: u8 = 4;
const BRANCH: u8 = 5;
const THUMB_BL_HIGH: u8 = 6;
const THUMB_BL_LOW: u8 = 7;
const BLOCK_MEM: u8 = 9;

/// How many records the unconditional native exit has with which these begin, if it is one. Two
/// halves of a Thumb BL are one whatever their conditions; in the BIOS, Bx and pop are shells.
fn exit(region: u32, records: &[Record]) -> Option<usize> {
    match records {
        [high, low, ..] if high[KIND] == THUMB_BL_HIGH && low[KIND] == THUMB_BL_LOW => Some(2),
        [record, ..] if record[CONDITION] == ALWAYS => {
            let is_exit = match record[KIND] {
                BRANCH => true,
                BX => region != BIOS,
                BLOCK_MEM => region != BIOS && is_pop(record),
                _ => false,
            };
            is_exit.then_some(1)
        }
        _ => None,
    }
}

/// Whether a BlockMem is the pop of PC that is native: a load upwards from the base, which is not
/// PC, with writeback and not of user registers.
fn is_pop(record: &Record) -> bool {
    const LOAD_UP_WRITEBACK: u8 = 1 | 4 | 16;
    const PC: u8 = 15;
    let lists_pc = record[13] & 0x80 != 0;
    record[4] == LOAD_UP_WRITEBACK && record[6] != PC && lists_pc
}

#[cfg(test)]
mod tests {
    use super::*;
    use recomp_tools::file::{build, Block};
    use recomp_tools::generate::{self, Params};
    use recomp_tools::reasons::{fates, Fate};
    use recomp_tools::record::{block_mem, Record};

    const IN_BIOS: u32 = 0x0000_0000;
    const IN_ROM: u32 = 0x0800_0000;
    const IN_RAM: u32 = 0x0300_0000;

    const EQ: u8 = 0;
    const NV: u8 = 15;

    const POP: u8 = block_mem::LOAD | block_mem::UP | block_mem::WRITEBACK;

    fn block(address: u32, records: &[Record], with_code: bool) -> Block {
        Block {
            address,
            thumb: false,
            code: with_code.then(|| vec![0; 4 * records.len()]),
            records: records.into(),
        }
    }

    /// How many instructions of a block are printed, which has these and another, and why no more.
    fn front_of(address: u32, records: &[Record], with_code: bool) -> (u64, Why) {
        let records = [records, &[Record::swi([0; 12])]].concat();
        let file = build(&[block(address, &records, with_code)]).bytes;
        let all: Vec<_> = unprinted(&file).collect();
        let [Unprinted { numbers, why }] = &all[..] else {
            panic!("one block");
        };
        assert_eq!(numbers.end, records.len() as u64);
        (numbers.start, *why)
    }

    /// Whether this record drops one after it, in ROM.
    fn drops(record: Record) -> bool {
        front_of(IN_ROM, &[record], false) == (1, Why::Dropped)
    }

    #[test]
    fn unconditional_exits_drop_the_rest() {
        let pop = Record::block_mem(POP, 13, 0x8000);
        for exit in [Record::branch(false, 8), Record::bx(14), pop] {
            assert!(drops(exit));
            assert!(!drops(exit.with_cond(EQ)) && !drops(exit.with_cond(NV)));
        }
        assert!(drops(Record::branch(true, 8)));
        assert!(drops(Record::block_mem(POP, 0, 0xffff)));
    }

    #[test]
    fn loads_of_pc_that_are_not_the_pop_drop_nothing() {
        assert!(!drops(Record::block_mem(POP, 15, 0x8000)));
        assert!(!drops(Record::block_mem(POP, 13, 0x7fff)));
        for flag in [1, 2, 4, 8, 16] {
            assert!(!drops(Record::block_mem(POP ^ flag, 13, 0x8000)));
        }
        assert!(!drops(Record::swi([0xff; 12])));
    }

    #[test]
    fn two_halves_drop_the_rest_and_one_does_not() {
        let [high, low] = [Record::thumb_bl_high(0), Record::thumb_bl_low(0)];
        let [high_eq, low_nv] = [high.with_cond(EQ), low.with_cond(NV)];
        let cases: [(&[Record], u64); 8] = [
            (&[high, low], 2),
            (&[high_eq, low_nv], 2),
            (&[high, high, low], 3),
            (&[low, high, low], 3),
            (&[high], 2),
            (&[low], 2),
            (&[low, high], 3),
            (&[high, Record::mul(false, false, 0, 0, 1, 2), low], 4),
        ];
        for address in [IN_BIOS, IN_ROM] {
            for (records, printed) in cases {
                let front = front_of(address, records, false);
                assert_eq!(front, (printed, Why::Dropped), "{records:?}");
            }
        }
    }

    #[test]
    fn the_region_is_the_page_modulo_16() {
        let bx = Record::bx(14);
        for high in [0, 0x1000_0000, 0xf000_0000] {
            for with_code in [false, true] {
                // In the BIOS a Bx is a shell, and a branch an exit.
                let front = |record| front_of(high + IN_BIOS, &[record], with_code);
                assert_eq!(front(bx), (2, Why::Dropped));
                assert_eq!(front(Record::branch(false, 8)), (1, Why::Dropped));
                let front = front_of(high + IN_ROM, &[bx], with_code);
                assert_eq!(front, (1, Why::Dropped));
            }
            for other in [1, 2, 3, 7, 9, 15] {
                let address = high + (other << 24);
                assert_eq!(front_of(address, &[bx], false), (0, Why::Deferred));
                assert_eq!(front_of(address, &[bx], true), (1, Why::Dropped));
            }
        }
    }

    #[test]
    fn numbers_go_through_the_file() {
        let [bx, swi] = [Record::bx(14), Record::swi([0; 12])];
        let file = build(&[
            block(IN_BIOS, &[bx, swi], false),
            block(IN_RAM, &[swi, bx, swi], false),
            block(IN_RAM + 12, &[swi, bx, swi, swi], true),
            block(IN_ROM, &[bx, swi], false),
        ])
        .bytes;
        let all = unprinted(&file).map(|some| (some.numbers, some.why));
        let expected = [
            (2..2, Why::Dropped),
            (2..5, Why::Deferred),
            (7..9, Why::Dropped),
            (10..11, Why::Dropped),
        ];
        assert!(all.eq(expected));
        let [deferred, dropped] = [Some(Why::Deferred), Some(Why::Dropped)];
        let whys = [0, 1, 2, 4, 5, 6, 7, 8, 9, 10, 11].map(|n| why(&file, n));
        let [none, a, b] = [None, deferred, dropped];
        let expected = [none, none, a, a, none, none, b, b, none, b, none];
        assert_eq!(whys, expected);
    }

    #[test]
    fn files_without_blocks_have_none() {
        assert_eq!(unprinted(&build(&[]).bytes).next(), None);
        assert_eq!(why(&build(&[]).bytes, 0), None);
    }

    #[test]
    fn generated_files_as_the_tools_have_them() {
        for seed in 0..500 {
            let file = generate::file(&Params::small(seed)).bytes;
            for (n, fate) in (0..).zip(fates(&file)) {
                let expected = match fate {
                    Fate::LeftWhole => Some(Why::Deferred),
                    Fate::Dropped => Some(Why::Dropped),
                    Fate::Native | Fate::Shell(_) => None,
                };
                assert_eq!(why(&file, n), expected, "seed {seed}, instruction {n}");
            }
        }
    }
}
