//! The calls of the proved library, with every number that its C interface hands over.

// Each program calls some of them.
#![allow(dead_code)]

#[path = "../../host/src/interface.rs"]
mod interface;

use recomp_tools::check::Numbers;
use recomp_tools::fronts::FrontNumbers;
use recomp_tools::listing::ListingNumbers;
use recomp_tools::model::{ExitNumbers, PlanNumbers};
use recomp_tools::pages::{Asked, PageNumbers};
use recomp_tools::reasons::{self, ReasonNumbers};
use recomp_tools::units::{MeasureNumbers, Told, WriteNumbers};

pub fn check(file: &[u8]) -> Numbers {
    let (number, [at, blocks, instructions]) = interface::check(file);
    Numbers {
        number,
        at,
        blocks,
        instructions,
    }
}

pub fn exits(file: &[u8], block: u64) -> ExitNumbers {
    let (number, [at, count, first, second]) = interface::exits(file, block);
    ExitNumbers {
        number,
        at,
        count,
        first,
        second,
    }
}

pub fn plan(file: &[u8], work: &mut [u32], plan: &mut [u32]) -> PlanNumbers {
    let (number, [at, blocks]) = interface::plan(file, work, plan);
    PlanNumbers { number, at, blocks }
}

pub fn listing(file: &[u8], work: &mut [u32], text: &mut [u8]) -> ListingNumbers {
    let (number, [at, length]) = interface::listing(file, work, text);
    ListingNumbers { number, at, length }
}

/// One page, or the pages from one on, as many whole ones as fit.
pub fn pages(file: &[u8], asked: Asked, work: &mut [u32], text: &mut [u8]) -> PageNumbers {
    let (number, at, count, length) = match asked {
        Asked::Page(page) => {
            let (number, [at, length]) = interface::page(file, page, work, text);
            (number, at, None, length)
        }
        Asked::From(first) => {
            let (number, [at, count, length]) = interface::pages(file, first, work, text);
            (number, at, Some(count), length)
        }
    };
    PageNumbers {
        number,
        at,
        count,
        length,
    }
}

/// One sentence, or the sentences from an instruction on, as many whole lines as fit.
pub fn reasons(file: &[u8], asked: reasons::Asked, text: &mut [u8]) -> ReasonNumbers {
    let (number, at, next, length) = match asked {
        reasons::Asked::One(instruction) => {
            let (number, [at, length]) = interface::reason(file, instruction, text);
            (number, at, None, length)
        }
        reasons::Asked::From(first) => {
            let (number, [at, next, length]) = interface::reasons(file, first, text);
            (number, at, Some(next), length)
        }
    };
    ReasonNumbers {
        number,
        at,
        next,
        length,
    }
}

/// What is told of unit `unit` of those that are handed on from `max_bytes` bytes on.
pub fn measure(file: &[u8], max_bytes: u64, unit: u64, work: &mut [u32]) -> MeasureNumbers {
    let (number, [at, unit, length, done, last]) = interface::measure(file, max_bytes, unit, work);
    let told = Told {
        unit,
        length,
        done,
        last,
    };
    MeasureNumbers { number, at, told }
}

/// Writes the unit of which this was told.
pub fn write(
    file: &[u8],
    max_bytes: u64,
    told: Told,
    work: &mut [u32],
    text: &mut [u8],
) -> WriteNumbers {
    let told = [told.unit, told.length, told.done, told.last];
    let (number, [at]) = interface::write(file, max_bytes, told, work, text);
    WriteNumbers { number, at }
}

/// The units from `first` on, as many whole ones as fit, and the length of each.
pub fn units(
    file: &[u8],
    max_bytes: u64,
    first: u64,
    work: &mut [u32],
    text: &mut [u8],
    lengths: &mut [u64],
) -> FrontNumbers {
    let (number, [at, count, length, done, last]) =
        interface::units(file, max_bytes, first, work, text, lengths);
    FrontNumbers {
        number,
        at,
        count,
        length: Some(length),
        done,
        last,
    }
}

/// The lengths of the units from `first` on, as many as there are places for.
pub fn lengths(
    file: &[u8],
    max_bytes: u64,
    first: u64,
    work: &mut [u32],
    lengths: &mut [u64],
) -> FrontNumbers {
    let (number, [at, count, done, last]) =
        interface::lengths(file, max_bytes, first, work, lengths);
    FrontNumbers {
        number,
        at,
        count,
        length: None,
        done,
        last,
    }
}
