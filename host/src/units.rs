//! The units of a file: first the length of each, then their texts, as many a call as what is lent
//! holds.

use crate::lent::{zeros, Lent, NoResult};
use crate::library;
use crate::promised::Promised;
use crate::threads;
use std::thread;

pub struct Units<'a> {
    lent: Lent<'a>,
    /// Units are closed from so many bytes on.
    size: u64,
    /// The length of each unit.
    lengths: Vec<u64>,
    text: Vec<u8>,
    /// Bytes that the text was to have.
    wished: u64,
    /// Units that were handed out.
    handed: usize,
}

impl<'a> Units<'a> {
    /// Has the units measured, and makes room for texts of all of them together, or of so many as
    /// `memory` bytes hold, or of the longest alone.
    pub fn new(mut lent: Lent<'a>, size: u64, memory: u64) -> Result<Units<'a>, NoResult> {
        let lengths = lengths_of(&mut lent, size)?;
        let longest = lengths.iter().copied().max().unwrap_or(0);
        let wished = lengths.iter().sum::<u64>().min(memory.max(longest));
        Ok(Units {
            lent,
            size,
            lengths,
            text: most(wished, longest, zeros)?,
            wished,
            handed: 0,
        })
    }

    /// The length of each unit.
    pub fn lengths(&self) -> &[u64] {
        &self.lengths
    }

    /// Blocks in all units.
    pub fn blocks(&self) -> u64 {
        self.lent.counts.blocks
    }

    /// Bytes that are lent for text and those that were to be, where memory is short.
    pub fn short(&self) -> Option<[u64; 2]> {
        let lent = self.text.len() as u64;
        (lent < self.wished).then_some([lent, self.wished])
    }

    /// The texts of the next units, as many as one call gives; nothing after the last.
    pub fn hand_out(&mut self) -> Result<Option<Vec<&[u8]>>, NoResult> {
        let first = self.handed;
        if first == self.lengths.len() {
            return Ok(None);
        }
        let promised = Promised::of(&mut self.text);
        self.handed += thread::scope(|scope| {
            if first == 0 && !promised.is_empty() {
                // Without a thread to be had the call takes longer.
                threads::start(scope, || promised.provide());
            }
            self.make(first)
        })?;
        let mut rest = &self.text[..];
        let cut = |&length: &u64| {
            let (unit, after) = rest.split_at(length as usize);
            rest = after;
            unit
        };
        let lengths = &self.lengths[first..self.handed];
        Ok(Some(lengths.iter().map(cut).collect()))
    }

    /// Has the text filled with units from a given one on, and tells how many they are.
    fn make(&mut self, first: usize) -> Result<usize, NoResult> {
        let (lent, text) = (&mut self.lent, &mut self.text);
        // The call puts the lengths where they are.
        let lengths = &mut self.lengths[first..];
        let (file, work) = (lent.file, &mut lent.work);
        let made = library::units(file, self.size, first as u64, work, text, lengths);
        Ok(made.map_err(NoResult::Refused)?.count as usize)
    }
}

/// The length of each unit, by one call: a unit but the last has a group of its own, so there is at
/// most one more than there are blocks.
pub fn lengths_of(lent: &mut Lent, size: u64) -> Result<Vec<u64>, NoResult> {
    let mut lengths = zeros(lent.counts.blocks as usize + 1)?;
    let measured = library::lengths(lent.file, size, 0, &mut lent.work, &mut lengths);
    let measured = measured.map_err(NoResult::Refused)?;
    assert!(measured.last, "there is a place for each length");
    lengths.truncate(measured.count as usize);
    Ok(lengths)
}

/// So many bytes, or half of them where they cannot be had, and so on down to `least`.
fn most<A>(
    wished: u64,
    least: u64,
    room: impl Fn(usize) -> Result<A, NoResult>,
) -> Result<A, NoResult> {
    let mut bytes = wished;
    loop {
        match room(usize::try_from(bytes).unwrap_or(usize::MAX)) {
            Err(NoResult::NoMemory(_)) if bytes > least => bytes = (bytes / 2).max(least),
            got => return got,
        }
    }
}

#[cfg(test)]
mod tests {
    use super::*;
    use recomp_tools::generate::{self, Params};

    /// How many units each call gives, and all texts.
    fn handed_out(file: &[u8], memory: u64) -> (Vec<usize>, Vec<Vec<u8>>) {
        let lent = Lent::new(file).expect("an accepted file");
        let mut units = Units::new(lent, 0, memory).expect("memory");
        let (mut calls, mut all) = (vec![], vec![]);
        while let Some(texts) = units.hand_out().expect("units") {
            calls.push(texts.len());
            all.extend(texts.into_iter().map(<[u8]>::to_vec));
        }
        (calls, all)
    }

    /// Each call but the last had no room for the unit after those that it gave.
    fn gave_the_most(calls: &[usize], all: &[Vec<u8>], room: usize) -> bool {
        let mut first = 0;
        let most = |&given: &usize| {
            let end = first + given;
            let length = |end: usize| all[first..end].iter().map(Vec::len).sum::<usize>();
            let fits = given > 0 && length(end) <= room;
            let full = end == all.len() || length(end + 1) > room;
            first = end;
            fits && full
        };
        calls.iter().all(most) && calls.iter().sum::<usize>() == all.len()
    }

    #[test]
    fn a_call_gives_as_many_units_as_the_bound_holds() {
        for seed in 0..20 {
            let file = &generate::file(&Params::small(seed)).bytes;
            let (calls, all) = handed_out(file, u64::MAX);
            assert_eq!(calls, [all.len()]);
            let longest = all.iter().map(Vec::len).max().expect("units");
            let bytes = all.iter().map(Vec::len).sum::<usize>();
            for memory in [0, 1, longest, longest + 1, bytes / 2, bytes - 1, bytes] {
                let (calls, again) = handed_out(file, memory as u64);
                assert!(again == all, "{seed} {memory}");
                assert!(
                    gave_the_most(&calls, &all, memory.max(longest)),
                    "{seed} {memory} {calls:?}"
                );
                assert_eq!(calls.len() == 1, memory == bytes || all.len() == 1);
            }
        }
    }

    /// Room for `free` bytes and no more.
    fn of(free: usize) -> impl Fn(usize) -> Result<usize, NoResult> {
        move |bytes| match bytes {
            bytes if bytes <= free => Ok(bytes),
            _ => Err(NoResult::NoMemory(bytes)),
        }
    }

    #[test]
    fn short_memory_is_halved_down_to_the_longest_unit() {
        assert_eq!(most(100, 30, of(100)), Ok(100));
        assert_eq!(most(100, 30, of(99)), Ok(50));
        assert_eq!(most(100, 30, of(49)), Ok(30));
        assert_eq!(most(100, 30, of(29)), Err(NoResult::NoMemory(30)));
        assert_eq!(most(30, 30, of(29)), Err(NoResult::NoMemory(30)));
    }
}
