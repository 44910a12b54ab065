//! Refusals 1 to 7 of a block file, in the order of document 01's table.

const MOST_BLOCKS: u64 = 65_536;
const MOST_INSTRUCTIONS: u64 = 1_048_576;

/// Addresses end here.
const ADDRESS_END: u64 = 1 << 32;

#[derive(Clone, Copy, Debug, PartialEq, Eq)]
pub struct Accepted {
    pub blocks: u64,
    pub instructions: u64,
}

/// The refusal's number and its i, 0 where there is no i.
#[derive(Clone, Copy, Debug, PartialEq, Eq)]
pub struct Refused {
    pub number: u32,
    pub at: u64,
}

/// An answer as the C interface and the stored vectors give it: numbers it does not have are 0.
#[derive(Clone, Copy, Debug, PartialEq, Eq)]
pub struct Numbers {
    /// The refusal's number, 0 for an accepted file.
    pub number: u32,
    pub at: u64,
    pub blocks: u64,
    pub instructions: u64,
}

impl From<Result<Accepted, Refused>> for Numbers {
    fn from(answer: Result<Accepted, Refused>) -> Numbers {
        let (number, at) = answer.map_or_else(|r| (r.number, r.at), |_| (0, 0));
        let (blocks, instructions) = answer.map_or((0, 0), |a| (a.blocks, a.instructions));
        Numbers {
            number,
            at,
            blocks,
            instructions,
        }
    }
}

type Record = [u8; 16];

/// What the trailer points at, once its own rules hold.
struct Parts<'a> {
    code_len: u64,
    instructions: &'a [Record],
    blocks: &'a [Record],
}

pub fn check(file: &[u8]) -> Result<Accepted, Refused> {
    let parts = split(file)?;
    let instructions = parts.instructions.len() as u64;
    if check_blocks(parts.blocks, parts.code_len)? != instructions {
        return refuse(6, 0);
    }
    if let Some(i) = parts.instructions.iter().position(|r| !is_instruction(r)) {
        return refuse(7, i);
    }
    Ok(Accepted {
        blocks: parts.blocks.len() as u64,
        instructions,
    })
}

fn refuse<T>(number: u32, at: usize) -> Result<T, Refused> {
    let at = at as u64;
    Err(Refused { number, at })
}

/// Little-endian words of a record or trailer.
pub(crate) fn words<const BYTES: usize, const WORDS: usize>(bytes: &[u8; BYTES]) -> [u32; WORDS] {
    let (words, _) = bytes.as_chunks::<4>();
    std::array::from_fn(|n| u32::from_le_bytes(words[n]))
}

/// Refusals 1 to 3. In 64 bits no sum of the trailer's words can wrap and pass for the right one.
fn split(file: &[u8]) -> Result<Parts<'_>, Refused> {
    let Some((front, trailer)) = file.split_last_chunk::<32>() else {
        return refuse(1, 0);
    };
    let [edition, blocks_back, blocks, instructions_back, instructions, code_back, code_len, length] =
        words(trailer).map(u64::from);
    if blocks > MOST_BLOCKS || instructions > MOST_INSTRUCTIONS {
        return refuse(2, 0);
    }
    let to_blocks = 32 + 16 * blocks;
    let to_instructions = to_blocks + 16 * instructions;
    let file_len = file.len() as u64;
    let holds = edition == 1
        && blocks_back == to_blocks
        && instructions_back == to_instructions
        && code_back == file_len
        && length == file_len
        && code_len + to_instructions == file_len;
    if !holds {
        return refuse(3, 0);
    }
    let (records, _) = front[code_len as usize..].as_chunks();
    let (instructions, blocks) = records.split_at(instructions as usize);
    Ok(Parts {
        code_len,
        instructions,
        blocks,
    })
}

/// Refusals 4 and 5, or the sum of the blocks' instruction counts.
fn check_blocks(records: &[Record], code_len: u64) -> Result<u64, Refused> {
    let mut total = 0;
    let mut last_key = None;
    for (i, record) in records.iter().enumerate() {
        let [address, flags, count, offset] = words(record);
        if !is_block(address, flags, count, offset, code_len) {
            return refuse(4, i);
        }
        let key = Some(address | flags & 1);
        // None is below every key, so the first block passes.
        if key <= last_key {
            return refuse(5, i);
        }
        last_key = key;
        total += u64::from(count);
    }
    Ok(total)
}

fn is_block(address: u32, flags: u32, count: u32, offset: u32, code_len: u64) -> bool {
    let thumb = flags & 1 != 0;
    let present = flags & 2 != 0;
    let size = if thumb { 2 } else { 4 };
    let byte_len = u64::from(count) * u64::from(size);
    flags < 4
        && (1..=65_535).contains(&count)
        && address.is_multiple_of(size)
        && u64::from(address) + byte_len <= ADDRESS_END
        && if present {
            u64::from(offset) + byte_len <= code_len
        } else {
            offset == 0
        }
}

/// Each mask has the bits that its word may have set: 0f for a register, 01 for a flag.
fn is_instruction(record: &Record) -> bool {
    let [head, low, middle, high] = words(record);
    let [kind, cond, ..] = head.to_le_bytes();
    let rest_holds = match kind {
        0 => is_alu(low, middle, high),
        1 => within(low, 0x0f0f_0101) && within(middle, 0x0f0f) && high == 0,
        2 => within(low, 0x0f01_0101) && within(middle, 0x000f_0f0f) && high == 0,
        4 => within(low, 0x0f) && middle == 0 && high == 0,
        5 => within(low, 0x01) && middle == 0 && high % 2 == 0,
        6 => low == 0 && middle == 0,
        7 => low == 0 && middle == 0 && within(high, 0xffff),
        8 => is_mem(low, middle, high),
        9 => within(low, 0x000f_001f) && middle == 0 && within(high, 0xffff),
        3 | 10..=14 => true,
        _ => false,
    };
    cond < 16 && rest_holds
}

fn within(word: u32, mask: u32) -> bool {
    word & !mask == 0
}

fn is_alu(low: u32, middle: u32, high: u32) -> bool {
    within(low, 0x0f0f_010f)
        && match middle & 0xff {
            // The rotation is even and at most 30, and the value is free.
            0 => within(middle, 0x1e00),
            form => is_shifted(form, middle, high),
        }
}

fn is_mem(low: u32, middle: u32, high: u32) -> bool {
    // Of the width's four values in two bits, 3 is none.
    within(low, 0x0f0f_031f)
        && low & 0x0300 != 0x0300
        && match middle & 0xff {
            0 => middle == 0 && within(high, 0xffff),
            form => is_shifted(form, middle, high),
        }
}

/// A register shifted by an amount below 32 (form 1) or by a register (form 2).
fn is_shifted(form: u32, middle: u32, high: u32) -> bool {
    high == 0
        && match form {
            1 => within(middle, 0x1f03_0f01),
            2 => within(middle, 0x0f03_0f02),
            _ => false,
        }
}
