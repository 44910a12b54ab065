//! Every refusal: 1 to 7 and 9 as the program prints them, 8, 10 and 11 as the library's calls give
//! them to a caller that lends too little, or gives values that are not the unit's.

mod common;

use common::{lone, lone_blocks, lone_shells, recomp, recomp_on, Scratch, READING};
use recomp_host::library::interface;
use recomp_host::library::{self, Lengths, Made, Pages, Refused, Sentences};
use recomp_tools::file::{block, build, trailer, File};
use recomp_tools::record::Record;

/// Two blocks of one instruction, damaged by setting the word at a place.
fn damaged(place: fn(&File) -> usize, word: u32) -> Vec<u8> {
    let mut file = lone_blocks(2);
    let at = place(&file);
    file.set_word(at, word);
    file.bytes
}

/// Number and i of each refusal of a file, words that its line has, and a file that gets it.
fn refused_files() -> Vec<(u32, u64, &'static str, Vec<u8>)> {
    let same_key = build(&[lone(0, Record::bx(14)), lone(0, Record::bx(14))]).bytes;
    vec![
        (1, 0, "under 32 bytes", vec![]),
        (1, 0, "under 32 bytes", vec![0; 31]),
        (
            2,
            0,
            "over 65,536 blocks",
            damaged(|f| f.trailer_at(trailer::BLOCKS), 65_537),
        ),
        (
            3,
            0,
            "the trailer's",
            damaged(|f| f.trailer_at(trailer::EDITION), 2),
        ),
        (3, 0, "copied whole", lone_blocks(2).bytes[16..].to_vec()),
        (
            4,
            1,
            "block 1, from 0:",
            damaged(|f| f.block_at(1, block::ADDRESS), 0x0800_0006),
        ),
        (5, 1, "block 1, from 0:", same_key),
        (
            6,
            0,
            "do not sum",
            damaged(|f| f.block_at(1, block::COUNT), 2),
        ),
        (
            7,
            1,
            "instruction 1, from 0",
            damaged(|f| f.instruction_at(1), 0xff),
        ),
    ]
}

#[test]
fn every_command_refuses_with_number_place_and_rule() {
    let scratch = Scratch::new();
    for (number, at, words, bytes) in refused_files() {
        let file = scratch.file("refused.blk", &bytes);
        let folder = scratch.join("units");
        let runs = [
            recomp(&["measure", &file, "0"]),
            recomp(&["page", &file, "0"]),
            recomp(&["exits", &file, "0"]),
            recomp(&["reasons", &file, "0"]),
            recomp(&["reasons", &file, "--summary"]),
            recomp(&["units", &file, "-o", &folder]),
        ];
        let all = READING.map(|command| recomp(&[command, &file]));
        for run in runs.into_iter().chain(all) {
            let line = run.failed(1);
            let start = format!("refused {number} at {at}: {file}: ");
            assert!(line.starts_with(&start), "{line}");
            assert!(line.contains(words), "{line}");
        }
        assert!(!std::path::Path::new(&folder).exists(), "no folder is made");
    }
}

#[test]
fn standard_input_is_refused_by_that_name() {
    for command in READING {
        let line = recomp_on(&[], &[command, "-"]).failed(1);
        assert!(
            line.starts_with("refused 1 at 0: standard input: "),
            "{line}"
        );
    }
}

#[test]
fn no_such_block() {
    let scratch = Scratch::new();
    let file = scratch.file("two.blk", &lone_blocks(2).bytes);
    for block in ["2", "18446744073709551615"] {
        let line = recomp(&["exits", &file, block]).failed(1);
        let start = format!("refused 9 at 0: {file}: there is no block {block};");
        assert!(line.starts_with(&start), "{line}");
    }
}

fn refusal(number: u32) -> Refused {
    Refused { number, at: 0 }
}

/// Nine work numbers that were 7, after a call on two blocks that zeroed theirs.
const ZEROED: [u32; 9] = [0, 0, 0, 0, 0, 0, 0, 0, 7];

#[test]
fn no_such_unit() {
    let file = lone_blocks(2).bytes;
    let (text, lengths) = (&mut [7; 8192], &mut [7; 4]);
    // Each of the two blocks has its unit, and the last has the table.
    for unit in [3, u64::MAX] {
        let work = &mut [7; 9];
        assert_eq!(interface::measure(&file, 0, unit, work), (9, [0; 5]));
        assert_eq!(*work, ZEROED);
        let work = &mut [7; 9];
        let answer = library::units(&file, 0, unit, work, text, lengths);
        assert_eq!((answer, *work), (Err(refusal(9)), ZEROED));
        let work = &mut [7; 9];
        let answer = library::lengths(&file, 0, unit, work, lengths);
        assert_eq!((answer, *work), (Err(refusal(9)), ZEROED));
    }
    assert_eq!(*lengths, [7; 4]);
    assert_eq!(text, &[7; 8192]);
}

/// Whatever is given for it, and whether or not any text is lent: 9 comes before 11 and 10.
#[test]
fn no_such_unit_to_write() {
    let file = lone_blocks(2).bytes;
    for mut given in [[0; 4], told(&file, 2)] {
        for (unit, room) in [(3, 0), (3, 8192), (u64::MAX, 8192)] {
            let (work, text) = (&mut [7; 9], &mut [7; 8192][..room]);
            given[0] = unit;
            assert_eq!(interface::write(&file, 0, given, work, text), (9, [0]));
            assert_eq!((*work, &*text), (ZEROED, &[7; 8192][..room]));
        }
    }
}

/// What measuring tells of a unit at size 0: number, length, blocks done, last mark.
fn told(file: &[u8], unit: u64) -> [u64; 4] {
    let (number, [at, told @ ..]) = interface::measure(file, 0, unit, &mut [7; 9]);
    assert_eq!((number, at), (0, 0));
    told
}

/// The texts of three units at size 0, by one call.
fn three_units(file: &[u8]) -> [Vec<u8>; 3] {
    let (work, text, lengths) = (&mut [7; 9], &mut [7; 16384], &mut [7; 3]);
    let made = library::units(file, 0, 0, work, text, lengths).expect("units");
    assert_eq!((made.count, made.last), (3, true));
    let mut rest = &text[..];
    lengths.map(|length| rest.split_off(..length as usize).expect("its text").into())
}

#[test]
fn a_unit_is_measured_then_written() {
    let file = lone_blocks(2).bytes;
    let units = three_units(&file);
    for (unit, done, last) in [(0, 1, 0), (1, 2, 0), (2, 2, 1)] {
        let expected = &units[unit as usize];
        let work = &mut [7; 9];
        let values = [unit, expected.len() as u64, done, last];
        let (number, [at, told @ ..]) = interface::measure(&file, 0, unit, work);
        assert_eq!((number, at, told, *work), (0, 0, values, ZEROED));
        for more in [0, 1, 100] {
            let work = &mut [7; 9];
            let mut text = vec![7; expected.len() + more];
            let answer = interface::write(&file, 0, told, work, &mut text);
            assert_eq!((answer, *work), ((0, [0]), ZEROED));
            assert_eq!(text, [&expected[..], &[7; 100][..more]].concat());
        }
    }
}

/// Answers of which one of the three values is another, by little or in its upper half alone. A
/// last mark of 2 is among them, whichever is told.
fn with_one_off(told: [u64; 4]) -> Vec<[u64; 4]> {
    let mut all = vec![];
    for place in 1..4 {
        let value = told[place];
        for other in [value + 1, value + 2, value.wrapping_sub(1), value | 1 << 32] {
            let mut given = told;
            given[place] = other;
            all.push(given);
        }
    }
    all
}

/// The text may be too short as well: 11 comes before 10.
#[test]
fn a_value_that_is_not_the_units() {
    let file = lone_blocks(2).bytes;
    for unit in 0..3 {
        let told = told(&file, unit);
        let length = told[1] as usize;
        for given in with_one_off(told) {
            for room in [0, length - 1, length, 8192] {
                let (work, text) = (&mut [7; 9], &mut [7; 8192][..room]);
                let answer = interface::write(&file, 0, given, work, text);
                assert_eq!(answer, (11, [0]), "{given:?}");
                assert_eq!((*work, &*text), (ZEROED, &[7; 8192][..room]));
            }
        }
    }
}

/// Of another unit, at another size, and of a file without blocks, which needs no work numbers.
#[test]
fn an_answer_for_something_else() {
    let [file, empty] = [2, 0].map(|blocks| lone_blocks(blocks).bytes);
    let [first, mut second] = [0, 1].map(|unit| told(&file, unit));
    second[0] = 0;
    for (file, size, given, left) in [
        (&file, 0, second, ZEROED),
        (&file, 1 << 20, first, ZEROED),
        (&empty, 0, first, [7; 9]),
    ] {
        let (work, text) = (&mut [7; 9], &mut [7; 8192]);
        let answer = interface::write(file, size, given, work, text);
        assert_eq!((answer, *work), ((11, [0]), left), "{given:?}");
        assert_eq!(text, &[7; 8192]);
    }
}

/// Equal values are all that is asked: the unit is that of the file and size that were given.
#[test]
fn an_answer_of_another_file_with_equal_values_writes() {
    let file = lone_blocks(2).bytes;
    let at = |address| lone(address, Record::bx(14));
    let other = build(&[at(0x0800_1000), at(0x0800_1010)]).bytes;
    for (unit, expected) in (0..).zip(three_units(&file)) {
        let kept = told(&other, unit);
        assert_eq!(kept, told(&file, unit));
        assert_ne!(three_units(&other)[unit as usize], expected);
        let mut text = vec![7; expected.len()];
        let answer = interface::write(&file, 0, kept, &mut [7; 9], &mut text);
        assert_eq!((answer, text), ((0, [0]), expected));
    }
}

#[test]
fn measuring_and_writing_refuse_a_file_as_the_check_does() {
    for (number, at, _, file) in refused_files() {
        let (work, text) = (&mut [7; 9], &mut [7; 8192]);
        let answer = interface::measure(&file, 0, 0, work);
        assert_eq!(answer, (number, [at, 0, 0, 0, 0]));
        let answer = interface::write(&file, 0, [0; 4], work, text);
        assert_eq!(answer, (number, [at]));
        assert_eq!(*work, [7; 9]);
        assert_eq!(text, &[7; 8192]);
    }
}

#[test]
fn no_such_page() {
    let file = lone_blocks(2).bytes;
    let text = &mut [7; 8192];
    for page in [0, 2, u64::MAX] {
        let work = &mut [7; 9];
        assert_eq!(library::page(&file, page, work, text), Err(refusal(9)));
        assert_eq!((work[..8].to_vec(), work[8]), (vec![0; 8], 7));
        let work = &mut [7; 9];
        assert_eq!(library::pages(&file, page, work, text), Err(refusal(9)));
        assert_eq!((work[..8].to_vec(), work[8]), (vec![0; 8], 7));
    }
    assert_eq!(text, &[7; 8192]);
}

/// Whether or not any text is lent: 9 comes before 10.
#[test]
fn no_such_instruction() {
    let [file, empty] = [2, 0].map(|count| lone_shells(count).bytes);
    for (file, instruction) in [(&file, 2), (&file, 1 << 32), (&file, u64::MAX), (&empty, 0)] {
        for room in [0, 64] {
            let text = &mut [7; 64][..room];
            assert_eq!(interface::reason(file, instruction, text), (9, [0; 2]));
            assert_eq!(interface::reasons(file, instruction, text), (9, [0; 3]));
            assert_eq!(*text, [7; 64][..room]);
        }
    }
}

#[test]
fn reasons_refuse_a_file_as_the_check_does() {
    for (number, at, _, file) in refused_files() {
        let text = &mut [7; 64];
        assert_eq!(interface::reason(&file, 0, text), (number, [at, 0]));
        assert_eq!(interface::reasons(&file, 0, text), (number, [at, 0, 0]));
        assert_eq!(text, &[7; 64]);
    }
}

#[test]
fn too_few_work_numbers() {
    let file = lone_blocks(2).bytes;
    let (work, text, plan) = (&mut [7; 7], &mut [7; 8192], &mut [7; 4]);
    assert_eq!(library::plan(&file, work, plan), Err(refusal(8)));
    assert_eq!(library::listing(&file, work, text), Err(refusal(8)));
    assert_eq!(library::page(&file, 1, work, text), Err(refusal(8)));
    assert_eq!(library::pages(&file, 1, work, text), Err(refusal(8)));
    // Whether there is such a unit, and what is given for it, is not looked at.
    for unit in [0, 3] {
        assert_eq!(interface::measure(&file, 0, unit, work), (8, [0; 5]));
        let given = [unit, 0, 0, 0];
        assert_eq!(interface::write(&file, 0, given, work, text), (8, [0]));
    }
    let lengths = &mut [7; 3];
    let answer = library::units(&file, 0, 0, work, text, lengths);
    assert_eq!(answer, Err(refusal(8)));
    let answer = library::lengths(&file, 0, 0, work, lengths);
    assert_eq!(answer, Err(refusal(8)));
    assert_eq!((*work, *plan, *lengths), ([7; 7], [7; 4], [7; 3]));
    assert_eq!(text, &[7; 8192]);
}

#[test]
fn too_short_a_result() {
    let file = lone_blocks(2).bytes;
    let (plan, text) = (&mut [7; 3], &mut [7; 40]);
    assert_eq!(library::plan(&file, &mut [7; 8], plan), Err(refusal(10)));
    let work = &mut [7; 8];
    assert_eq!(library::listing(&file, work, text), Err(refusal(10)));
    assert_eq!((*work, *plan), ([0; 8], [7; 3]));
    assert_eq!(text, &[7; 40]);
    let (work, lengths) = (&mut [7; 8], &mut [7; 3]);
    let answer = library::units(&file, 0, 0, work, text, lengths);
    assert_eq!(answer, Err(refusal(10)));
    assert_eq!((*work, *lengths), ([0; 8], [7; 3]));
    assert_eq!(text, &[7; 40]);
    // No place for a length.
    let text = &mut [7; 8192];
    let answer = library::units(&file, 0, 0, work, text, &mut []);
    assert_eq!(answer, Err(refusal(10)));
    let answer = library::lengths(&file, 0, 0, work, &mut []);
    assert_eq!(answer, Err(refusal(10)));
    assert_eq!(text, &[7; 8192]);
}

#[test]
fn too_short_a_text_for_a_unit() {
    let file = lone_blocks(2).bytes;
    for unit in 0..3 {
        let told = told(&file, unit);
        for room in [0, 1, told[1] as usize - 1] {
            let (work, text) = (&mut [7; 9], &mut [7; 8192][..room]);
            assert_eq!(interface::write(&file, 0, told, work, text), (10, [0]));
            assert_eq!((*work, &*text), (ZEROED, &[7; 8192][..room]));
        }
    }
}

#[test]
fn too_short_a_page() {
    let file = lone_blocks(2).bytes;
    for room in [0, 65, 194] {
        let (work, text) = (&mut [7; 8], &mut [7; 194][..room]);
        assert_eq!(library::page(&file, 1, work, text), Err(refusal(10)));
        assert_eq!(*work, [0; 8]);
        let work = &mut [7; 8];
        assert_eq!(library::pages(&file, 1, work, text), Err(refusal(10)));
        assert_eq!((*work, &*text), ([0; 8], &[7; 194][..room]));
    }
}

#[test]
fn too_short_a_text_for_a_sentence() {
    let file = lone_shells(2).bytes;
    for room in [0, 1, 26] {
        let text = &mut [7; 26][..room];
        assert_eq!(interface::reason(&file, 1, text), (10, [0; 2]));
        assert_eq!(*text, [7; 26][..room]);
    }
    // A line has its newline too.
    for room in [0, 1, 26, 27] {
        let text = &mut [7; 27][..room];
        assert_eq!(interface::reasons(&file, 1, text), (10, [0; 3]));
        assert_eq!(*text, [7; 27][..room]);
    }
}

#[test]
fn no_text_is_too_short_for_no_sentence() {
    let file = lone_blocks(2).bytes;
    for room in [0, 64] {
        let text = &mut [7; 64][..room];
        assert_eq!(interface::reason(&file, 1, text), (0, [0; 2]));
        assert_eq!(interface::reasons(&file, 1, text), (0, [0, 2, 0]));
        assert_eq!(*text, [7; 64][..room]);
    }
}

/// Three lines of 28 bytes, with room for two and a bit, then for the last exactly.
#[test]
fn as_many_sentences_as_fit() {
    let file = lone_shells(3).bytes;
    let sentence = |n| format!("{:08x} Swi no native form", 0x0800_0000 + 4 * n);
    let [first, second, third] = [0, 1, 2].map(sentence);
    let text = &mut [7; 83];
    let [next, length] = [2, 56];
    let made = library::reasons(&file, 0, text);
    assert_eq!(made, Ok(Sentences { next, length }));
    let lines = format!("{first}\n{second}\n");
    assert_eq!(text[..], [lines.as_bytes(), &[7; 27]].concat());
    let text = &mut [7; 28];
    let [next, length] = [3, 28];
    let made = library::reasons(&file, 2, text);
    assert_eq!(made, Ok(Sentences { next, length }));
    assert_eq!(text[..], *format!("{third}\n").as_bytes());
    for more in [0, 1] {
        let text = &mut [7; 28][..27 + more];
        assert_eq!(library::reason(&file, 1, text), Ok(27));
        assert_eq!(*text, [second.as_bytes(), &[7][..more]].concat());
    }
}

/// Pages of 60, 60 and 1 blocks, with room for two and a bit, then for the last exactly.
#[test]
fn as_many_pages_as_fit() {
    const FULL: usize = 61 * 65;
    let file = lone_blocks(121).bytes;
    let (mut work, mut text) = ([7; 4 * 121 + 1], [7; 3 * FULL]);
    let mut page = |number| {
        let length = library::page(&file, number, &mut work, &mut text);
        let length = length.expect("a page") as usize;
        text[..length].to_vec()
    };
    let pages = [1, 2, 3].map(&mut page);
    assert_eq!([FULL, FULL, 130], [0, 1, 2].map(|n| pages[n].len()));
    let mut text = [7; 2 * FULL + 129];
    let made = library::pages(&file, 1, &mut work, &mut text);
    let [count, length] = [2, 2 * FULL as u64];
    assert_eq!(made, Ok(Pages { count, length }));
    assert_eq!(text[..], [&pages[0][..], &pages[1], &[7; 129]].concat());
    assert_eq!((work[..484].to_vec(), work[484]), (vec![0; 484], 7));
    let mut text = [7; FULL + 130];
    let made = library::pages(&file, 2, &mut work, &mut text);
    let [count, length] = [2, FULL as u64 + 130];
    assert_eq!(made, Ok(Pages { count, length }));
    assert_eq!(text[..], [&pages[1][..], &pages[2]].concat());
}

/// Two units of three, with room for two and a bit, then for two lengths.
#[test]
fn as_many_units_as_fit() {
    let file = lone_blocks(2).bytes;
    let units = common::expected(&file, 0);
    let [first, second] = [units[0].len(), units[1].len()];
    let both = first + second;
    let (work, lengths) = (&mut [7; 8], &mut [7; 3]);
    let mut text = vec![7; both + 1];
    let made = library::units(&file, 0, 0, work, &mut text, lengths);
    let two = Made {
        count: 2,
        length: both as u64,
        done: 2,
        last: false,
    };
    assert_eq!(made, Ok(two));
    assert_eq!(*lengths, [first as u64, second as u64, 7]);
    assert_eq!(text, [&units[0][..], &units[1], &[7]].concat());
    let measured = library::lengths(&file, 0, 1, work, lengths);
    let rest = Lengths {
        count: 2,
        done: 2,
        last: true,
    };
    assert_eq!(measured, Ok(rest));
    assert_eq!(*lengths, [second as u64, units[2].len() as u64, 7]);
}
