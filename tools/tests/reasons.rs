//! Sentences against document 02's words: the reason of each record, what becomes of instructions,
//! and what the two calls answer and leave.

use recomp_tools::check::{check, Accepted, Refused};
use recomp_tools::file::{build, Block};
use recomp_tools::reasons::{
    blocks, fates, outcome, sentences, Asked, Fate, Kind, Outcome, Reason, ReasonNumbers, Sentence,
};
use recomp_tools::record::{block_mem, Operand, Record};

/// Three blocks of one native instruction each.
const SAMPLE: &[u8] = include_bytes!("../../samples/three_blocks.blk");

const BIOS: u32 = 0x0000_0000;
const ROM: u32 = 0x0800_0000;
const RAM: u32 = 0x0300_0000;

fn file(address: u32, thumb: bool, code: bool, records: &[Record]) -> Vec<u8> {
    let mut block = Block {
        address,
        thumb,
        code: None,
        records: records.to_vec(),
    };
    block.code = code.then(|| vec![0; block.byte_len()]);
    build(&[block]).bytes
}

/// The sentences of a block with code bytes.
fn said(address: u32, records: &[Record]) -> Vec<Option<String>> {
    sentences(&file(address, false, true, records))
}

fn bytes(hex: &str) -> Record {
    let digits: String = hex.split(' ').collect();
    let byte = |n: usize| u8::from_str_radix(&digits[2 * n..2 * n + 2], 16).expect("a byte");
    Record(std::array::from_fn(byte))
}

const PC_AS_RESULT: &str = "PC as result or stored register";

/// Where the words leave some doubt: a record by its bytes, and what is said of it alone in a block
/// of ROM, after the address.
const DOUBTFUL: &str = "
010e0000 00000f00 00000000 00000000 Mul PC as result or stored register
020e0000 0000000f 00000000 00000000
020e0000 00000000 0f000000 00000000
000e0000 0a000f00 00000000 00000000 Alu PC as result or stored register
000e0000 00000000 01000300 00000000
080e0000 00000000 01000300 00000000 Mem rotate with extend in an offset
080e0000 00000000 02000000 00000000 Mem register-given shift
080e0000 0000000f 00000000 00000000
080e0000 00000f00 02000000 00000000 Mem PC as result or stored register
090e0000 00000000 00000000 00800000
09000000 15000f00 00000000 00800000 BlockMem PC as base
09000000 05000000 00000000 00800000 BlockMem PC in a loaded list
090e0000 09000000 00000000 00800000 BlockMem user registers
090e0000 00000f00 00000000 00000000 BlockMem empty list
090e0000 15000000 00000000 00800000
09000000 15000000 00000000 00800000 BlockMem conditional exit
040f0000 00000000 00000000 00000000 Bx conditional exit
070e0000 00000000 00000000 00000000 ThumbBlLow unpaired half
060e0000 00000000 00000000 00000000 ThumbBlHigh unpaired half
030e0000 00000f00 00000000 00000000 Swap no native form
";

#[test]
fn doubtful_records() {
    for line in DOUBTFUL.trim().lines() {
        let (hex, words) = line.split_at(35);
        let expected = (!words.is_empty()).then(|| format!("08000000{words}"));
        assert_eq!(said(ROM, &[bytes(hex)]), [expected], "{hex}");
    }
}

/// Exits of a region that is the page modulo 16, and a condition before it.
#[test]
fn bios_exits() {
    let pop = block_mem::LOAD | block_mem::UP | block_mem::WRITEBACK;
    let (bx, pop) = (Record::bx(14), Record::block_mem(pop, 13, 0x8000));
    for address in [BIOS, 0x1000_0000, 0xf000_0000] {
        let words = |words: &str| Some(format!("{address:08x} {words}"));
        assert_eq!(said(address, &[bx]), [words("Bx BIOS exit")]);
        assert_eq!(said(address, &[pop]), [words("BlockMem BIOS exit")]);
        let conditional = said(address, &[bx.with_cond(0)]);
        assert_eq!(conditional, [words("Bx conditional exit")]);
    }
    for address in [ROM, RAM, 0x0100_0000, 0x1800_0000] {
        assert_eq!(said(address, &[bx]), [None]);
        assert_eq!(said(address, &[pop]), [None]);
    }
    let user = Record::block_mem(0x09, 0, 0x8000);
    let expected = Some("00000000 BlockMem user registers".to_string());
    assert_eq!(said(BIOS, &[user]), [expected]);
}

/// The four compares, and another operation.
#[test]
fn pc_as_result() {
    for op in [8, 9, 10, 11, 4] {
        let value = Operand::Value { value: 0, ror: 0 };
        let record = Record::alu(op, true, 15, 0, value);
        let expected = Some(format!("08000000 Alu {PC_AS_RESULT}"));
        assert_eq!(said(ROM, &[record]), [expected]);
        let other = Record::alu(op, true, 14, 15, value);
        assert_eq!(said(ROM, &[other]), [None]);
    }
}

const NATIVE: Fate = Fate::Native;
const DROPPED: Fate = Fate::Dropped;
const HALF: Fate = Fate::Shell(Reason::UnpairedHalf);
const SHELL: Fate = Fate::Shell(Reason::NoNativeForm);

fn fates_at(address: u32, records: &[Record]) -> Vec<Fate> {
    fates(&file(address, false, true, records))
}

#[test]
fn pairs_and_halves() {
    let (high, low) = (Record::thumb_bl_high(0), Record::thumb_bl_low(0));
    let mrs = Record::mrs([0; 12]);
    let of = |records: &[Record]| fates_at(ROM, records);
    let never = [high.with_cond(15), low.with_cond(0), mrs];
    assert_eq!(of(&never), [NATIVE, NATIVE, DROPPED]);
    assert_eq!(of(&[mrs, high, low]), [SHELL, NATIVE, NATIVE]);
    assert_eq!(of(&[high, high, low]), [HALF, NATIVE, NATIVE]);
    assert_eq!(of(&[high, low, low]), [NATIVE, NATIVE, DROPPED]);
    assert_eq!(of(&[low, high, mrs]), [HALF, HALF, SHELL]);
    assert_eq!(of(&[high, mrs, low]), [HALF, SHELL, HALF]);
    // Halves of two blocks are no pair, though one follows the other.
    let block = |address, record| Block {
        address,
        thumb: true,
        code: None,
        records: vec![record],
    };
    let apart = build(&[block(ROM, high), block(ROM + 2, low)]);
    assert_eq!(fates(&apart.bytes), [HALF, HALF]);
}

#[test]
fn dropped_rests() {
    let mrs = Record::mrs([0; 12]);
    let branch = Record::branch(true, ROM);
    let pop = Record::block_mem(0x15, 0, 0x8000);
    for exit in [branch, Record::bx(0), pop] {
        assert_eq!(fates_at(ROM, &[mrs, exit, mrs]), [SHELL, NATIVE, DROPPED]);
        assert_eq!(fates_at(RAM, &[exit, mrs, mrs]), [NATIVE, DROPPED, DROPPED]);
        let after = fates_at(ROM, &[exit.with_cond(15), mrs])[1];
        assert_eq!(after, SHELL);
    }
    assert_eq!(fates_at(BIOS, &[branch, mrs]), [NATIVE, DROPPED]);
    for exit in [Record::bx(0), pop] {
        let through = Fate::Shell(Reason::BiosExit);
        assert_eq!(fates_at(BIOS, &[exit, mrs]), [through, SHELL]);
    }
}

/// Without code bytes a block outside ROM and BIOS is left whole, whatever page gives its region.
#[test]
fn blocks_without_bytes() {
    let records = [Record::mrs([0; 12]), Record::branch(false, 0)];
    for page in 0..256 {
        let own = fates(&file(page << 24, true, false, &records));
        match page % 16 {
            0 | 8 => assert_eq!(own, [SHELL, NATIVE], "{page:#x}"),
            _ => assert_eq!(own, [Fate::LeftWhole; 2], "{page:#x}"),
        }
        let own = fates(&file(page << 24, true, true, &records));
        assert_eq!(own, [SHELL, NATIVE], "{page:#x}");
    }
    // A block has the region of its own address, also behind the end of a page.
    let over = file(0x07ff_fffc, false, false, &[Record::mrs([0; 12]); 2]);
    assert_eq!(fates(&over), [Fate::LeftWhole; 2]);
}

/// Two bytes to an instruction in Thumb, four in ARM.
#[test]
fn addresses() {
    for (thumb, step) in [(false, 4), (true, 2)] {
        let file = file(0xffff_fff0, thumb, true, &[Record::swi([0; 12]); 4]);
        let told = blocks(&file).concat();
        let addresses: Vec<u32> = told.iter().map(|told| told.address).collect();
        let expected = [0, 1, 2, 3].map(|n| 0xffff_fff0 + step * n);
        assert_eq!(addresses, expected);
    }
}

/// All triples have sentences of their own, from which they are read back.
#[test]
fn read_back() {
    let mut texts = std::collections::HashSet::new();
    for address in [0, 1, 0x0800_0000, 0x89ab_cdef, u32::MAX] {
        for kind in Kind::ALL {
            for (reason, words) in Reason::ALL {
                let said = Sentence {
                    address,
                    kind,
                    reason,
                };
                let text = said.to_string();
                assert_eq!(text, format!("{address:08x} {kind:?} {words}"));
                assert_eq!(Sentence::read(&text), Some(said));
                assert!(texts.insert(text));
            }
        }
    }
    let others = [
        "",
        "08000000",
        "08000000 Bx",
        "08000000 Bx BIOS exit\n",
        "08000000 Bx BIOS exit.",
        "08000000  Bx BIOS exit",
        "8000000 Bx BIOS exit",
        "+8000000 Bx BIOS exit",
        "0800000A Bx BIOS exit",
        "08000000 bx BIOS exit",
        "08000000 Bx bios exit",
        "08000000 Mu lLong BIOS exit",
    ];
    for text in others {
        assert_eq!(Sentence::read(text), None, "{text:?}");
    }
}

/// Five instructions with sentences of 3, 5 and 2 bytes on the second, third and fifth.
fn five() -> [Option<String>; 5] {
    [None, Some("two"), Some("third"), None, Some("no")].map(|said| said.map(str::to_string))
}

const CHECKED: Result<Accepted, Refused> = Ok(Accepted {
    blocks: 1,
    instructions: 5,
});

fn answered(next: Option<u64>, text: &str) -> Outcome {
    let numbers = ReasonNumbers {
        number: 0,
        at: 0,
        next,
        length: text.len() as u64,
    };
    let text = text.to_string();
    Outcome { numbers, text }
}

/// A refusal of the call for one sentence, then of the call for sentences.
fn refused(number: u32, at: u64) -> [Outcome; 2] {
    [None, Some(0)].map(|next| {
        let mut outcome = answered(next, "");
        outcome.numbers = ReasonNumbers {
            number,
            at,
            ..outcome.numbers
        };
        outcome
    })
}

#[test]
fn one_sentence() {
    let of = |n, text| outcome(CHECKED, &five(), Asked::One(n), text);
    for text in [3, 4, 65_536] {
        assert_eq!(of(1, text), answered(None, "two"));
    }
    assert_eq!(of(2, 5), answered(None, "third"));
    assert_eq!(of(4, 2), answered(None, "no"));
    for (n, short) in [(1, 2), (1, 0), (2, 4), (4, 1)] {
        assert_eq!(of(n, short), refused(10, 0)[0]);
    }
    // Where there is none, no text is too short.
    for text in [0, 1, 100] {
        assert_eq!(of(0, text), answered(None, ""));
        assert_eq!(of(3, text), answered(None, ""));
    }
}

#[test]
fn lines_that_fit() {
    let of = |first, text| outcome(CHECKED, &five(), Asked::From(first), text);
    for first in [0, 1] {
        for text in [13, 14, 65_536] {
            assert_eq!(of(first, text), answered(Some(5), "two\nthird\nno\n"));
        }
        for text in [10, 12] {
            assert_eq!(of(first, text), answered(Some(4), "two\nthird\n"));
        }
        // The last line would fit where the second does not; none is passed over.
        for text in [4, 7, 9] {
            assert_eq!(of(first, text), answered(Some(2), "two\n"));
        }
        for text in [0, 3] {
            assert_eq!(of(first, text), refused(10, 0)[1]);
        }
    }
    assert_eq!(of(2, 9), answered(Some(5), "third\nno\n"));
    assert_eq!(of(2, 8), answered(Some(4), "third\n"));
    assert_eq!(of(2, 5), refused(10, 0)[1]);
    for first in [3, 4] {
        assert_eq!(of(first, 3), answered(Some(5), "no\n"));
        assert_eq!(of(first, 2), refused(10, 0)[1]);
    }
    // None from there on: no text is too short.
    let none = [Some("a".to_string()), None, None];
    for text in [0, 1, 2] {
        let from = |first| outcome(CHECKED, &none, Asked::From(first), text);
        assert_eq!(from(1), answered(Some(3), ""));
        assert_eq!(from(2), answered(Some(3), ""));
    }
}

/// Both calls for a number.
fn both(
    checked: Result<Accepted, Refused>,
    sentences: &[Option<String>],
    number: u64,
    text: usize,
) -> [Outcome; 2] {
    let asked = [Asked::One(number), Asked::From(number)];
    asked.map(|asked| outcome(checked, sentences, asked, text))
}

/// A number that no instruction has comes before a text that is too short; a file without
/// instructions has none.
#[test]
fn no_instruction() {
    for number in [5, 6, 1 << 32, (1 << 32) + 1, u64::MAX] {
        for text in [0, 65_536] {
            assert_eq!(both(CHECKED, &five(), number, text), refused(9, 0));
        }
    }
    let empty = build(&[]).bytes;
    for number in [0, 1, u64::MAX] {
        let answers = both(check(&empty), &sentences(&empty), number, 0);
        assert_eq!(answers, refused(9, 0));
    }
    assert_eq!(sentences(SAMPLE), [None, None, None]);
}

/// A refusal of the check comes first, however little is lent and whatever instruction is named.
#[test]
fn refused_file() {
    let third = check(&SAMPLE[..100]);
    let seventh = Err(Refused { number: 7, at: 2 });
    for number in [0, 5, u64::MAX] {
        for text in [0, 65_536] {
            assert_eq!(both(third, &[], number, text), refused(3, 0));
            assert_eq!(both(seventh, &[], number, text), refused(7, 2));
        }
    }
}
