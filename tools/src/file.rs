//! A builder of block files: code area, instruction records, block records, trailer.

use crate::record::Record;

/// Bytes of a block record, and of an instruction record.
pub const RECORD: usize = 16;

/// Bytes of the trailer.
pub const TRAILER: usize = 32;

/// The trailer's words, by their place in it.
pub mod trailer {
    pub const EDITION: usize = 0;
    pub const BLOCKS_BACK: usize = 1;
    pub const BLOCKS: usize = 2;
    pub const INSTRUCTIONS_BACK: usize = 3;
    pub const INSTRUCTIONS: usize = 4;
    pub const CODE_BACK: usize = 5;
    pub const CODE: usize = 6;
    pub const LENGTH: usize = 7;
}

/// A block record's words, by their place in it.
pub mod block {
    pub const ADDRESS: usize = 0;
    pub const FLAGS: usize = 1;
    pub const COUNT: usize = 2;
    pub const OFFSET: usize = 3;
}

#[derive(Clone, Debug)]
pub struct Block {
    pub address: u32,
    pub thumb: bool,
    /// The code bytes, `byte_len` of them, or their absence.
    pub code: Option<Vec<u8>>,
    pub records: Vec<Record>,
}

impl Block {
    /// Bytes of the block's code: 2 (Thumb) or 4 (ARM) for each instruction.
    pub fn byte_len(&self) -> usize {
        self.records.len() * if self.thumb { 2 } else { 4 }
    }
}

/// The bytes of a file together with the places of its records.
#[derive(Clone, Debug)]
pub struct File {
    pub bytes: Vec<u8>,
    pub code_len: usize,
    pub instructions: usize,
    pub blocks: usize,
}

impl File {
    /// Offset of instruction record `i`.
    pub fn instruction_at(&self, i: usize) -> usize {
        self.code_len + RECORD * i
    }

    /// All instruction records.
    pub fn records(&self) -> impl Iterator<Item = Record> + '_ {
        let records = self.code_len..self.instruction_at(self.instructions);
        let record = |bytes: &[u8]| Record(bytes.try_into().expect("16 bytes"));
        self.bytes[records].chunks(RECORD).map(record)
    }

    /// Offset of word `word` of block record `i`.
    pub fn block_at(&self, i: usize, word: usize) -> usize {
        self.instruction_at(self.instructions) + RECORD * i + 4 * word
    }

    /// Offset of word `word` of the trailer.
    pub fn trailer_at(&self, word: usize) -> usize {
        self.block_at(self.blocks, word)
    }

    pub fn word(&self, at: usize) -> u32 {
        u32::from_le_bytes(self.bytes[at..at + 4].try_into().expect("four bytes"))
    }

    pub fn set_word(&mut self, at: usize, value: u32) {
        self.bytes[at..at + 4].copy_from_slice(&value.to_le_bytes());
    }
}

/// The file of these blocks, their code bytes one after another.
pub fn build(blocks: &[Block]) -> File {
    build_with_spare(blocks, &[])
}

/// As `build`, with bytes at the end of the code area that belong to no block.
pub fn build_with_spare(blocks: &[Block], spare: &[u8]) -> File {
    let mut bytes = Vec::new();
    let mut offsets = Vec::with_capacity(blocks.len());
    for code in blocks.iter().map(|b| b.code.as_deref()) {
        offsets.push(code.map_or(0, |_| bytes.len()));
        bytes.extend_from_slice(code.unwrap_or_default());
    }
    bytes.extend_from_slice(spare);
    let code_len = bytes.len();
    let records = blocks.iter().flat_map(|b| &b.records);
    records.for_each(|r| bytes.extend_from_slice(&r.0));
    for (b, offset) in blocks.iter().zip(offsets) {
        push_block(&mut bytes, b, offset);
    }
    let instructions = blocks.iter().map(|b| b.records.len()).sum();
    push_trailer(&mut bytes, code_len, instructions, blocks.len());
    File {
        bytes,
        code_len,
        instructions,
        blocks: blocks.len(),
    }
}

fn push_block(bytes: &mut Vec<u8>, b: &Block, offset: usize) {
    let flags = b.thumb as usize | (b.code.is_some() as usize) << 1;
    push_words(bytes, &[b.address as usize, flags, b.records.len(), offset]);
}

fn push_trailer(bytes: &mut Vec<u8>, code_len: usize, instructions: usize, blocks: usize) {
    let blocks_back = TRAILER + RECORD * blocks;
    let instructions_back = blocks_back + RECORD * instructions;
    let length = instructions_back + code_len;
    push_words(
        bytes,
        &[
            1,
            blocks_back,
            blocks,
            instructions_back,
            instructions,
            length,
            code_len,
            length,
        ],
    );
}

fn push_words(bytes: &mut Vec<u8>, words: &[usize]) {
    for &word in words {
        let word = u32::try_from(word).expect("a word of a block file has 32 bits");
        bytes.extend_from_slice(&word.to_le_bytes());
    }
}
