//! Instruction records, 16 bytes each, with a constructor for every kind.

/// The condition that always holds; constructors give it, `with_cond` changes it.
pub const AL: u8 = 14;

/// Flag bits of byte 4 in a Mem record.
pub mod mem {
    pub const LOAD: u8 = 1;
    pub const SIGNED: u8 = 2;
    pub const PRE: u8 = 4;
    pub const UP: u8 = 8;
    pub const WRITEBACK: u8 = 16;
}

/// Flag bits of byte 4 in a BlockMem record.
pub mod block_mem {
    pub const LOAD: u8 = 1;
    pub const PRE: u8 = 2;
    pub const UP: u8 = 4;
    pub const S_BIT: u8 = 8;
    pub const WRITEBACK: u8 = 16;
}

/// Kinds whose bytes 4 to 15 are free.
#[derive(Clone, Copy, Debug, PartialEq, Eq)]
pub enum FreeKind {
    Swap = 3,
    Mrs = 10,
    MsrReg = 11,
    MsrImm = 12,
    Swi = 13,
    Undefined = 14,
}

impl FreeKind {
    pub const ALL: [FreeKind; 6] = [
        FreeKind::Swap,
        FreeKind::Mrs,
        FreeKind::MsrReg,
        FreeKind::MsrImm,
        FreeKind::Swi,
        FreeKind::Undefined,
    ];
}

/// A register with a shift, bytes 8 to 11 of an Alu or Mem record.
#[derive(Clone, Copy, Debug)]
pub enum Shifted {
    ByAmount { rm: u8, kind: u8, amount: u8 },
    ByRegister { rm: u8, kind: u8, rs: u8 },
}

impl Shifted {
    fn bytes(self) -> [u8; 4] {
        match self {
            Shifted::ByAmount { rm, kind, amount } => [1, rm, kind, amount],
            Shifted::ByRegister { rm, kind, rs } => [2, rm, kind, rs],
        }
    }
}

/// Second operand of an Alu record.
#[derive(Clone, Copy, Debug)]
pub enum Operand {
    Value { value: u32, ror: u8 },
    Register(Shifted),
}

/// Offset of a Mem record.
#[derive(Clone, Copy, Debug)]
pub enum Offset {
    Value(u16),
    Register(Shifted),
}

/// A native store of several registers that lists its base: whether the base is the lowest of them
/// and is written back, whether addresses go up and pass over the base, and whether there is a
/// condition.
#[derive(Clone, Copy, Debug, PartialEq, Eq, Hash)]
pub struct StoredBase {
    pub lowest: bool,
    pub writeback: bool,
    pub up: bool,
    pub pre: bool,
    pub conditional: bool,
}

impl StoredBase {
    /// How many there are.
    pub const COUNT: usize = 32;

    /// A number below that for each.
    pub fn number(self) -> usize {
        let flags = [
            self.lowest,
            self.writeback,
            self.up,
            self.pre,
            self.conditional,
        ];
        flags.iter().fold(0, |n, &flag| 2 * n + flag as usize)
    }
}

/// One record. Constructors store what they are given: whether it is in range is for the check.
#[derive(Clone, Copy, Debug, PartialEq, Eq)]
pub struct Record(pub [u8; 16]);

impl Record {
    fn new(kind: u8, fields: &[u8], high: u32) -> Record {
        let mut bytes = [0; 16];
        bytes[0] = kind;
        bytes[1] = AL;
        bytes[4..4 + fields.len()].copy_from_slice(fields);
        bytes[12..].copy_from_slice(&high.to_le_bytes());
        Record(bytes)
    }

    pub fn with_cond(mut self, cond: u8) -> Record {
        self.0[1] = cond;
        self
    }

    pub fn with_cost(mut self, cost: u16) -> Record {
        self.0[2..4].copy_from_slice(&cost.to_le_bytes());
        self
    }

    pub fn alu(op: u8, s: bool, rd: u8, rn: u8, operand: Operand) -> Record {
        let (form, value) = match operand {
            Operand::Value { value, ror } => ([0, ror, 0, 0], value),
            Operand::Register(shifted) => (shifted.bytes(), 0),
        };
        let [a, b, c, d] = form;
        Record::new(0, &[op, s as u8, rd, rn, a, b, c, d], value)
    }

    pub fn mul(acc: bool, s: bool, rd: u8, rn: u8, rs: u8, rm: u8) -> Record {
        Record::new(1, &[acc as u8, s as u8, rd, rn, rs, rm], 0)
    }

    /// `flags` are signed, acc and s; `registers` are rd_hi, rd_lo, rs and rm.
    pub fn mul_long(flags: [bool; 3], registers: [u8; 4]) -> Record {
        let [signed, acc, s] = flags.map(u8::from);
        let [hi, lo, rs, rm] = registers;
        Record::new(2, &[signed, acc, s, hi, lo, rs, rm], 0)
    }

    pub fn bx(rm: u8) -> Record {
        Record::new(4, &[rm], 0)
    }

    pub fn branch(link: bool, target: u32) -> Record {
        Record::new(5, &[link as u8], target)
    }

    pub fn thumb_bl_high(lr_partial: u32) -> Record {
        Record::new(6, &[], lr_partial)
    }

    pub fn thumb_bl_low(off: u16) -> Record {
        Record::new(7, &[], off.into())
    }

    pub fn mem(flags: u8, width: u8, rd: u8, rn: u8, offset: Offset) -> Record {
        let ([a, b, c, d], value) = match offset {
            Offset::Value(value) => ([0; 4], value),
            Offset::Register(shifted) => (shifted.bytes(), 0),
        };
        Record::new(8, &[flags, width, rd, rn, a, b, c, d], value.into())
    }

    pub fn block_mem(flags: u8, rn: u8, rlist: u16) -> Record {
        Record::new(9, &[flags, 0, rn], rlist.into())
    }

    /// What a store of a listed base is like, if this is one.
    pub fn stored_base(&self) -> Option<StoredBase> {
        let (kind, cond, flags, rn) = (self.0[0], self.0[1], self.0[4], self.0[6]);
        let rlist = u16::from_le_bytes([self.0[12], self.0[13]]);
        let store = kind == 9 && flags & (block_mem::LOAD | block_mem::S_BIT) == 0;
        (store && rn != 15 && rlist >> rn & 1 == 1).then(|| StoredBase {
            lowest: rlist.trailing_zeros() == rn.into(),
            writeback: flags & block_mem::WRITEBACK != 0,
            up: flags & block_mem::UP != 0,
            pre: flags & block_mem::PRE != 0,
            conditional: cond != AL,
        })
    }

    pub fn free(kind: FreeKind, rest: [u8; 12]) -> Record {
        let mut record = Record::new(kind as u8, &[], 0);
        record.0[4..].copy_from_slice(&rest);
        record
    }

    pub fn swap(rest: [u8; 12]) -> Record {
        Record::free(FreeKind::Swap, rest)
    }

    pub fn mrs(rest: [u8; 12]) -> Record {
        Record::free(FreeKind::Mrs, rest)
    }

    pub fn msr_reg(rest: [u8; 12]) -> Record {
        Record::free(FreeKind::MsrReg, rest)
    }

    pub fn msr_imm(rest: [u8; 12]) -> Record {
        Record::free(FreeKind::MsrImm, rest)
    }

    pub fn swi(rest: [u8; 12]) -> Record {
        Record::free(FreeKind::Swi, rest)
    }

    pub fn undefined(rest: [u8; 12]) -> Record {
        Record::free(FreeKind::Undefined, rest)
    }
}
