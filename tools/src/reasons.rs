//! Why the interpreter took an instruction, written from document 02 (request 4) and document 01
//! ('Block text'): what becomes of each instruction of an accepted file, and its sentence. What the
//! two calls answer and leave is in `calls`.

mod calls;

pub use calls::{outcome, Asked, Outcome, ReasonNumbers};

use crate::check::words;
use crate::file::RECORD;
use crate::model;
use crate::record::{block_mem, AL};
use std::fmt::{self, Display, Formatter};

const PC: u8 = 15;

/// Regions: the page of a block's address modulo 16.
const BIOS: u32 = 0;
const ROM: u32 = 8;

/// Kinds of instructions, by the names that they have in `Op`.
#[derive(Clone, Copy, Debug, PartialEq, Eq)]
pub enum Kind {
    Alu,
    Mul,
    MulLong,
    Swap,
    Bx,
    Branch,
    ThumbBlHigh,
    ThumbBlLow,
    Mem,
    BlockMem,
    Mrs,
    MsrReg,
    MsrImm,
    Swi,
    Undefined,
}

impl Kind {
    /// All of them, by the number that a record has for each.
    pub const ALL: [Kind; 15] = [
        Kind::Alu,
        Kind::Mul,
        Kind::MulLong,
        Kind::Swap,
        Kind::Bx,
        Kind::Branch,
        Kind::ThumbBlHigh,
        Kind::ThumbBlLow,
        Kind::Mem,
        Kind::BlockMem,
        Kind::Mrs,
        Kind::MsrReg,
        Kind::MsrImm,
        Kind::Swi,
        Kind::Undefined,
    ];

    fn of(record: &[u8; RECORD]) -> Kind {
        Kind::ALL[usize::from(record[0])]
    }
}

#[derive(Clone, Copy, Debug, PartialEq, Eq)]
pub enum Reason {
    UnpairedHalf,
    ConditionalExit,
    BiosExit,
    PcAsResult,
    RegisterShift,
    RotateWithExtend,
    UserRegisters,
    EmptyList,
    PcAsBase,
    PcInLoadedList,
    NoNativeForm,
}

impl Reason {
    /// All of them, in document 02's order and words.
    pub const ALL: [(Reason, &'static str); 11] = [
        (Reason::UnpairedHalf, "unpaired half"),
        (Reason::ConditionalExit, "conditional exit"),
        (Reason::BiosExit, "BIOS exit"),
        (Reason::PcAsResult, "PC as result or stored register"),
        (Reason::RegisterShift, "register-given shift"),
        (Reason::RotateWithExtend, "rotate with extend in an offset"),
        (Reason::UserRegisters, "user registers"),
        (Reason::EmptyList, "empty list"),
        (Reason::PcAsBase, "PC as base"),
        (Reason::PcInLoadedList, "PC in a loaded list"),
        (Reason::NoNativeForm, "no native form"),
    ];

    /// Whether it holds of a record that is no half of a pair, in a block of this region. Where
    /// none holds, the record is native.
    fn holds(self, region: u32, record: &[u8; RECORD]) -> bool {
        let kind = Kind::of(record);
        let transfer = kind == Kind::BlockMem;
        let native_exit = is_exit(record) && record[1] == AL && region != BIOS;
        match self {
            Reason::UnpairedHalf => matches!(kind, Kind::ThumbBlHigh | Kind::ThumbBlLow),
            Reason::ConditionalExit => is_exit(record) && record[1] != AL,
            Reason::BiosExit => is_exit(record) && region == BIOS,
            Reason::PcAsResult => {
                matches!(kind, Kind::Alu | Kind::Mul | Kind::Mem) && record[6] == PC
            }
            Reason::RegisterShift => matches!(kind, Kind::Alu | Kind::Mem) && record[8] == 2,
            // Form 1 with shift kind Ror and amount 0.
            Reason::RotateWithExtend => kind == Kind::Mem && matches!(record[8..12], [1, _, 3, 0]),
            Reason::UserRegisters => transfer && record[4] & block_mem::S_BIT != 0,
            Reason::EmptyList => transfer && rlist(record) == 0,
            Reason::PcAsBase => transfer && record[6] == PC,
            Reason::PcInLoadedList => transfer && loads_pc(record) && !native_exit,
            Reason::NoNativeForm => matches!(
                kind,
                Kind::Swap | Kind::Mrs | Kind::MsrReg | Kind::MsrImm | Kind::Swi | Kind::Undefined
            ),
        }
    }

    /// The first that holds.
    fn first(region: u32, record: &[u8; RECORD]) -> Option<Reason> {
        let mut reasons = Reason::ALL.into_iter().map(|(reason, _)| reason);
        reasons.find(|reason| reason.holds(region, record))
    }
}

fn rlist(transfer: &[u8; RECORD]) -> u16 {
    u16::from_le_bytes([transfer[12], transfer[13]])
}

fn loads_pc(transfer: &[u8; RECORD]) -> bool {
    transfer[4] & block_mem::LOAD != 0 && rlist(transfer) >> PC & 1 != 0
}

/// Bx, or the pop of PC that a block's text knows: loading upwards from a base other than PC, which
/// is written back.
fn is_exit(record: &[u8; RECORD]) -> bool {
    const POP: u8 = block_mem::LOAD | block_mem::UP | block_mem::WRITEBACK;
    match Kind::of(record) {
        Kind::Bx => true,
        Kind::BlockMem => record[4] == POP && loads_pc(record) && record[6] != PC,
        _ => false,
    }
}

/// What becomes of an instruction in the text of its block.
#[derive(Clone, Copy, Debug, PartialEq, Eq)]
pub enum Fate {
    /// Lowered to C, alone or as half of a pair.
    Native,
    /// Its shell is printed.
    Shell(Reason),
    /// It is in a block outside ROM and BIOS without code bytes, which the interpreter has whole.
    LeftWhole,
    /// It stands behind an unconditional native exit of its block.
    Dropped,
}

/// An instruction of an accepted file.
#[derive(Clone, Copy, Debug, PartialEq, Eq)]
pub struct Instruction {
    pub address: u32,
    pub kind: Kind,
    pub fate: Fate,
}

impl Instruction {
    pub fn sentence(&self) -> Option<Sentence> {
        let Fate::Shell(reason) = self.fate else {
            return None;
        };
        Some(Sentence {
            address: self.address,
            kind: self.kind,
            reason,
        })
    }
}

/// The fates of a block's instructions.
fn block_fates(region: u32, code: bool, own: &[[u8; RECORD]]) -> Vec<Fate> {
    if !matches!(region, BIOS | ROM) && !code {
        return vec![Fate::LeftWhole; own.len()];
    }
    let pair = |n: usize| {
        let kinds = own[n..].iter().take(2).map(Kind::of);
        kinds.eq([Kind::ThumbBlHigh, Kind::ThumbBlLow])
    };
    let mut fates = vec![];
    for (n, record) in own.iter().enumerate() {
        if pair(n) {
            fates.extend([Fate::Native; 2]);
            break;
        }
        let reason = Reason::first(region, record);
        fates.push(reason.map_or(Fate::Native, Fate::Shell));
        let exit = Kind::of(record) == Kind::Branch || is_exit(record);
        if reason.is_none() && exit && record[1] == AL {
            break;
        }
    }
    fates.resize(own.len(), Fate::Dropped);
    fates
}

/// The instructions of an accepted file, block by block.
pub fn blocks(file: &[u8]) -> Vec<Vec<Instruction>> {
    let block = |(record, own): (&[u8; RECORD], &[[u8; RECORD]])| {
        let [address, flags, ..]: [u32; 4] = words(record);
        let size = if flags & 1 != 0 { 2 } else { 4 };
        let fates = block_fates(address >> 24 & 15, flags & 2 != 0, own);
        let told = own.iter().zip(fates).zip(0..);
        let told = told.map(|((record, fate), n)| Instruction {
            address: address + size * n,
            kind: Kind::of(record),
            fate,
        });
        told.collect()
    };
    model::records(file).into_iter().map(block).collect()
}

/// The fate of each instruction of an accepted file.
pub fn fates(file: &[u8]) -> Vec<Fate> {
    let instructions = blocks(file).into_iter().flatten();
    instructions.map(|instruction| instruction.fate).collect()
}

/// The sentence of each instruction of an accepted file, where it has one.
pub fn sentences(file: &[u8]) -> Vec<Option<String>> {
    let instructions = blocks(file).into_iter().flatten();
    let text = |instruction: Instruction| instruction.sentence().map(|said| said.to_string());
    instructions.map(text).collect()
}

/// What a sentence says; printed, it is the sentence.
#[derive(Clone, Copy, Debug, PartialEq, Eq)]
pub struct Sentence {
    pub address: u32,
    pub kind: Kind,
    pub reason: Reason,
}

impl Display for Sentence {
    fn fmt(&self, out: &mut Formatter) -> fmt::Result {
        let (_, words) = Reason::ALL[self.reason as usize];
        write!(out, "{:08x} {:?} {words}", self.address, self.kind)
    }
}

impl Sentence {
    /// What a text says, where it is a sentence.
    pub fn read(text: &str) -> Option<Sentence> {
        let mut parts = text.splitn(3, ' ');
        let [address, kind, reason] = [parts.next()?, parts.next()?, parts.next()?];
        let named = |other: &&Kind| format!("{other:?}") == kind;
        let worded = |(_, words): &&(Reason, &str)| *words == reason;
        let said = Sentence {
            address: u32::from_str_radix(address, 16).ok()?,
            kind: *Kind::ALL.iter().find(named)?,
            reason: Reason::ALL.iter().find(worded)?.0,
        };
        // A number may be written in several ways, an address in one.
        (said.to_string() == text).then_some(said)
    }
}
