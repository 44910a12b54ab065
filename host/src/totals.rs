//! What the units of a file come to in all, as one line says it.

use std::fmt::{self, Display, Formatter};

pub struct Totals {
    pub units: u64,
    /// Blocks in all units.
    pub blocks: u64,
    /// Bytes of all units.
    pub bytes: u64,
}

impl Totals {
    /// Of units that have these lengths, and so many blocks together.
    pub fn of(lengths: impl ExactSizeIterator<Item = u64>, blocks: u64) -> Totals {
        Totals {
            units: lengths.len() as u64,
            blocks,
            // Lengths that are read from a manifest may be any numbers.
            bytes: lengths.fold(0, u64::saturating_add),
        }
    }
}

impl Display for Totals {
    fn fmt(&self, to: &mut Formatter) -> fmt::Result {
        let Totals {
            units,
            blocks,
            bytes,
        } = self;
        write!(to, "units {units}, blocks {blocks}, bytes {bytes}")
    }
}
