//! Block files as they are read: whole and once, from a path or from standard input.

use crate::failure::Failure;
use std::ffi::OsStr;
use std::fs::File;
use std::io::{self, ErrorKind, Read, Seek};
use std::os::fd::AsFd;

/// The length of the longest file that is accepted: the trailer gives the length in 32 bits, and
/// code bytes may fill whatever trailer and records leave.
const LONGEST: u64 = u32::MAX as u64;

/// A file's bytes, with the name under which messages speak of it.
pub struct Input {
    pub name: String,
    pub bytes: Vec<u8>,
}

/// Reads the file at a path, or standard input where the path is `-`.
pub fn read(path: &OsStr) -> Result<Input, Failure> {
    let (name, file) = if path == "-" {
        ("standard input".into(), standard_input())
    } else {
        (path.to_string_lossy().into_owned(), File::open(path))
    };
    let read = file.and_then(|mut file| read_all(&mut file));
    match read.map_err(|error| cannot_read(&name, &error))? {
        Some(bytes) => Ok(Input { name, bytes }),
        None => Err(too_long(&name)),
    }
}

/// A file of its own: Rust's standard input takes one that cannot be read for an empty one.
fn standard_input() -> io::Result<File> {
    Ok(io::stdin().as_fd().try_clone_to_owned()?.into())
}

/// All bytes, or nothing if there are more than a block file can have. The length of a plain file
/// is looked at first, so that one that is too long is not read at all.
fn read_all(file: &mut File) -> io::Result<Option<Vec<u8>>> {
    let expected = length_ahead(file)?.unwrap_or(0);
    if expected > LONGEST {
        return Ok(None);
    }
    let mut bytes = Vec::new();
    // One more, so that the end is found without more memory.
    bytes.try_reserve_exact(expected as usize + 1)?;
    file.take(LONGEST + 1).read_to_end(&mut bytes)?;
    Ok(Some(bytes).filter(|bytes| bytes.len() as u64 <= LONGEST))
}

/// The bytes of a plain file from the place reached in it on.
fn length_ahead(file: &mut File) -> io::Result<Option<u64>> {
    let data = file.metadata()?;
    if !data.is_file() {
        return Ok(None);
    }
    Ok(Some(data.len().saturating_sub(file.stream_position()?)))
}

fn too_long(name: &str) -> Failure {
    let what = format!("{name} is longer than {LONGEST} bytes, as no block file is");
    Failure::error(format!("{what}; name a block file"))
}

fn cannot_read(name: &str, error: &io::Error) -> Failure {
    let advice = match error.kind() {
        ErrorKind::NotFound => "check the path",
        ErrorKind::PermissionDenied => "ask for the right to read it",
        ErrorKind::IsADirectory => "name a block file, or - for standard input",
        ErrorKind::OutOfMemory => "free memory, or run on a larger machine",
        _ => "see that it can be read, then run again",
    };
    Failure::error(format!("cannot read {name}: {error}; {advice}"))
}
