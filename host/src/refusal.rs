//! Refusals in words: the rule that was broken, the block or instruction that broke it.

use crate::library::Refused;

/// The line for a refusal of the file of this name.
pub fn line(name: &str, refused: Refused) -> String {
    with_rule(name, refused, &rule(refused))
}

/// The line for a refusal of a call that named a block.
pub fn line_for_block(name: &str, refused: Refused, block: u64) -> String {
    let rule = match refused.number {
        9 => format!(
            "there is no block {block}; `recomp check` says how many there are, the first being 0"
        ),
        _ => rule(refused),
    };
    with_rule(name, refused, &rule)
}

/// The line for a refusal of a call that named a page, of a file that has so many.
pub fn line_for_page(name: &str, refused: Refused, page: u64, pages: u64) -> String {
    let rule = match (refused.number, pages) {
        (9, 0) => format!(
            "there is no page {page}, nor any other, as there are no blocks; name another file"
        ),
        (9, 1) => format!("there is no page {page}; name page 1, the only one"),
        (9, _) => format!("there is no page {page}; name one of pages 1 to {pages}"),
        _ => rule(refused),
    };
    with_rule(name, refused, &rule)
}

/// The line for a refusal of a call that named a unit, of a file that has so many at this size.
pub fn line_for_unit(name: &str, refused: Refused, unit: u64, units: u64) -> String {
    let rule = match (refused.number, units) {
        (9, 1) => format!("there is no unit {unit}; name unit 0, the only one at this size"),
        (9, _) => format!(
            "there is no unit {unit} among the {units} at this size; name one of units 0 to {}",
            units.saturating_sub(1)
        ),
        _ => rule(refused),
    };
    with_rule(name, refused, &rule)
}

/// The line for a refusal of a call that named an instruction, of a file that has so many.
pub fn line_for_instruction(name: &str, refused: Refused, instruction: u64, all: u64) -> String {
    let rule = match (refused.number, all) {
        (9, 0) => format!(
            "there is no instruction {instruction}, nor any other, as there are no blocks; name \
             another file"
        ),
        (9, 1) => {
            format!("there is no instruction {instruction}; name instruction 0, the only one")
        }
        (9, _) => format!(
            "there is no instruction {instruction} among the {all}; name one of instructions 0 to \
             {}",
            all - 1
        ),
        _ => rule(refused),
    };
    with_rule(name, refused, &rule)
}

fn with_rule(name: &str, Refused { number, at }: Refused, rule: &str) -> String {
    format!("refused {number} at {at}: {name}: {rule}")
}

fn rule(Refused { number, at }: Refused) -> String {
    match number {
        1 => "under 32 bytes, so there is no trailer; name a block file, and see that \
              it was copied whole"
            .into(),
        2 => "the trailer counts over 65,536 blocks or over 1,048,576 instructions; \
              hand over fewer in one file"
            .into(),
        3 => "the trailer's edition, distances, counts and length do not fit the file; \
              name a block file, and see that it was copied whole"
            .into(),
        4 => format!(
            "block {at}, from 0: its record breaks a rule (address even for Thumb and \
             a multiple of 4 for ARM, 1 to 65,535 instructions, end within 2^32, code \
             bytes inside the code area, other flags 0); have the converter write it \
             again"
        ),
        5 => format!(
            "block {at}, from 0: its key is not above that of the block before; have \
             the converter sort blocks by key, with each key once"
        ),
        6 => "the blocks' instruction counts do not sum to the trailer's; have the \
              converter write the file again"
            .into(),
        7 => format!(
            "instruction {at}, from 0 through the file: a field of its record is out \
             of range, or a byte is not zero that must be; have the converter write \
             it again"
        ),
        8 => "fewer than four work numbers for each block were lent; lend more".into(),
        9 => "there is no such block, page, unit or instruction; name one that the file has".into(),
        10 => "what was lent for the result is too short; lend more".into(),
        11 => "a value given for the unit is not the unit's; measure the unit again".into(),
        _ => "this program does not know the refusal; build it again with its library".into(),
    }
}
