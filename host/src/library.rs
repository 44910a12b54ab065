//! The calls of the proved library with their answers as values or a refusal. They test nothing
//! themselves: what each call answers and leaves in what it is lent is said in include/recomp.h and
//! proved.

#[path = "interface.rs"]
pub mod interface;

/// The number of a refusal and the block or instruction that it names, or 0.
#[derive(Clone, Copy, Debug, PartialEq, Eq)]
pub struct Refused {
    pub number: u32,
    pub at: u64,
}

/// What an accepted file has.
#[derive(Clone, Copy, Debug, PartialEq, Eq)]
pub struct Counts {
    pub blocks: u64,
    pub instructions: u64,
}

/// What is said of several pages beside their texts.
#[derive(Clone, Copy, Debug, PartialEq, Eq)]
pub struct Pages {
    /// How many they are.
    pub count: u64,
    /// Bytes of all their texts, in the front of the text lent.
    pub length: u64,
}

/// What is said of several sentences beside their text.
#[derive(Clone, Copy, Debug, PartialEq, Eq)]
pub struct Sentences {
    /// The first instruction whose sentence did not fit, or the number of all instructions.
    pub next: u64,
    /// Bytes of all lines, in the front of the text lent.
    pub length: u64,
}

/// What measuring tells of a unit, and writing it takes back.
#[derive(Clone, Copy, Debug, PartialEq, Eq)]
pub struct Told {
    /// Its number.
    pub unit: u64,
    /// Bytes of its text.
    pub length: u64,
    /// Blocks in it and in all units before it.
    pub done: u64,
    /// 1 for the file's last unit, 0 for the others. It is given back as it was told.
    pub last: u64,
}

/// What is said of several units beside their texts and the length of each.
#[derive(Clone, Copy, Debug, PartialEq, Eq)]
pub struct Made {
    /// How many they are.
    pub count: u64,
    /// Bytes of all their texts, in the front of the text lent.
    pub length: u64,
    /// Blocks in them and in all units before them.
    pub done: u64,
    /// Whether the last of them is the file's last.
    pub last: bool,
}

/// What is said of units of which the lengths alone were asked for.
#[derive(Clone, Copy, Debug, PartialEq, Eq)]
pub struct Lengths {
    pub count: u64,
    pub done: u64,
    pub last: bool,
}

/// The values if the call returned 0, else the refusal.
fn answer<A>(number: u32, at: u64, values: A) -> Result<A, Refused> {
    match number {
        0 => Ok(values),
        number => Err(Refused { number, at }),
    }
}

pub fn check(file: &[u8]) -> Result<Counts, Refused> {
    let (number, [at, blocks, instructions]) = interface::check(file);
    let counts = Counts {
        blocks,
        instructions,
    };
    answer(number, at, counts)
}

/// The keys that block `block` can statically go to, at most two.
pub fn exits(file: &[u8], block: u64) -> Result<Vec<u64>, Refused> {
    let (number, [at, count, first, second]) = interface::exits(file, block);
    let keys = [first, second].into_iter().take(count as usize);
    answer(number, at, keys.collect())
}

/// The number of blocks; `plan` then has group and block for each, in its front.
pub fn plan(file: &[u8], work: &mut [u32], plan: &mut [u32]) -> Result<u64, Refused> {
    let (number, [at, blocks]) = interface::plan(file, work, plan);
    answer(number, at, blocks)
}

/// The length of the listing; `text` then has it in its front.
pub fn listing(file: &[u8], work: &mut [u32], text: &mut [u8]) -> Result<u64, Refused> {
    let (number, [at, length]) = interface::listing(file, work, text);
    answer(number, at, length)
}

/// The length of page `page` of the plan, from 1; `text` then has it in its front.
pub fn page(file: &[u8], page: u64, work: &mut [u32], text: &mut [u8]) -> Result<u64, Refused> {
    let (number, [at, length]) = interface::page(file, page, work, text);
    answer(number, at, length)
}

/// Pages `first`, `first` + 1 and so on of the plan, as many whole ones as fit `text`; `text` then
/// has them one after another in its front.
pub fn pages(file: &[u8], first: u64, work: &mut [u32], text: &mut [u8]) -> Result<Pages, Refused> {
    let (number, [at, count, length]) = interface::pages(file, first, work, text);
    answer(number, at, Pages { count, length })
}

/// The length of the sentence of instruction `instruction`, from 0, or 0 where it has none; `text`
/// then has it in its front.
pub fn reason(file: &[u8], instruction: u64, text: &mut [u8]) -> Result<u64, Refused> {
    let (number, [at, length]) = interface::reason(file, instruction, text);
    answer(number, at, length)
}

/// The sentences of instruction `first` and of those after it, a newline after each, as many whole
/// lines as fit `text`; `text` then has them one after another in its front.
pub fn reasons(file: &[u8], first: u64, text: &mut [u8]) -> Result<Sentences, Refused> {
    let (number, [at, next, length]) = interface::reasons(file, first, text);
    answer(number, at, Sentences { next, length })
}

/// What is told of unit `unit`, from 0, of those that are closed from `max_bytes` bytes on.
pub fn measure(file: &[u8], max_bytes: u64, unit: u64, work: &mut [u32]) -> Result<Told, Refused> {
    let (refusal, [at, number, length, done, last]) =
        interface::measure(file, max_bytes, unit, work);
    let told = Told {
        unit: number,
        length,
        done,
        last,
    };
    answer(refusal, at, told)
}

/// Writes the unit of which this was told, at the same `max_bytes`; `text` then has its text in its
/// front.
pub fn write(
    file: &[u8],
    max_bytes: u64,
    told: Told,
    work: &mut [u32],
    text: &mut [u8],
) -> Result<(), Refused> {
    let told = [told.unit, told.length, told.done, told.last];
    let (number, [at]) = interface::write(file, max_bytes, told, work, text);
    answer(number, at, ())
}

/// Units `first`, `first` + 1 and so on, as many whole ones as fit `text` and have a place among
/// `lengths`; `text` then has them one after another in its front, `lengths` the length of each.
pub fn units(
    file: &[u8],
    max_bytes: u64,
    first: u64,
    work: &mut [u32],
    text: &mut [u8],
    lengths: &mut [u64],
) -> Result<Made, Refused> {
    let (number, [at, count, length, done, last]) =
        interface::units(file, max_bytes, first, work, text, lengths);
    let values = Made {
        count,
        length,
        done,
        last: last != 0,
    };
    answer(number, at, values)
}

/// The lengths of units `first`, `first` + 1 and so on, as many as have a place; `lengths` then has
/// them in its front.
pub fn lengths(
    file: &[u8],
    max_bytes: u64,
    first: u64,
    work: &mut [u32],
    lengths: &mut [u64],
) -> Result<Lengths, Refused> {
    let (number, [at, count, done, last]) =
        interface::lengths(file, max_bytes, first, work, lengths);
    let values = Lengths {
        count,
        done,
        last: last != 0,
    };
    answer(number, at, values)
}
