//! Room on the disk for all that a run writes, reserved before the first unit is written. A file
//! without a name holds it, so that it is free again when the program ends, however that ends; each
//! file gets its part of it just before it is written.

use crate::failure::Failure;
use crate::held::Held;
use std::ffi::c_int;
use std::fs::File;
use std::io::{self, ErrorKind};
use std::os::fd::AsRawFd;

/// What most file systems give out at a time.
const BLOCK: u64 = 4096;

pub struct Room {
    /// None where the file system reserves nothing.
    file: Option<File>,
    /// Bytes that are still held.
    left: u64,
}

impl Room {
    /// Reserves room for files of these lengths. Fails where the disk has less.
    pub fn reserve(held: &Held, lengths: impl Iterator<Item = u64>) -> Result<Room, Failure> {
        let left = lengths.map(taken).sum();
        let file = held.create_unnamed()?;
        let file = match allocate(&file, left) {
            Ok(()) => Some(file),
            Err(error) if is_full(&error) => {
                let why = format!("it takes {left} bytes of the disk: {error}");
                let advice = "make room, or name another folder with -o";
                return Err(Failure::cannot(
                    "write the units to",
                    held.path(),
                    why,
                    advice,
                ));
            }
            // Then the disk is found full, if it is, when a unit is written.
            Err(_) => None,
        };
        Ok(Room { file, left })
    }

    /// Gives back what a file of this length takes.
    pub fn give_back(&mut self, length: u64) {
        self.left = self.left.saturating_sub(taken(length));
        if let Some(file) = &self.file {
            // Where this fails, so does writing the file, if there is no other room.
            let _ = file.set_len(self.left);
        }
    }
}

/// Bytes of the disk that a file of this length takes.
fn taken(length: u64) -> u64 {
    length.next_multiple_of(BLOCK)
}

fn is_full(error: &io::Error) -> bool {
    matches!(
        error.kind(),
        ErrorKind::StorageFull | ErrorKind::QuotaExceeded
    )
}

extern "C" {
    // Of the C library.
    fn posix_fallocate(file: c_int, from: i64, length: i64) -> c_int;
    fn signal(number: c_int, action: usize) -> usize;
}

/// Makes a file so long, with all its room on the disk.
fn allocate(file: &File, length: u64) -> io::Result<()> {
    const TOO_LONG: c_int = 25;
    const IGNORE: usize = 1;
    // SAFETY: the calls take numbers alone, under the first of which a file is open. A limit on the
    // length of files is for each that is written and does not end the program for this one.
    let number = unsafe {
        let before = signal(TOO_LONG, IGNORE);
        let number = posix_fallocate(file.as_raw_fd(), 0, length as i64);
        signal(TOO_LONG, before);
        number
    };
    match number {
        0 => Ok(()),
        number => Err(io::Error::from_raw_os_error(number)),
    }
}
