//! Whether the units in a folder are those of its manifest.

use crate::failure::Failure;
use crate::held::{Beside, Held};
use crate::manifest::{self, Entry, Manifest};
use crate::names::{self, MANIFEST};
use crate::sha256::{self, Sha256};
use std::fs::{self, File};
use std::io::{self, ErrorKind, Read};
use std::path::Path;

/// No manifest is longer: there are at most 65,537 units.
const LONGEST: u64 = manifest::most_bytes(65_537);

/// Bytes of a unit that are read at a time.
const PART: usize = 1 << 18;

const AGAIN: &str = "write the units again with recomp units";

/// The manifest of a folder whose units are as it says, with no unit beside them.
pub fn verify(path: &Path) -> Result<Manifest, Failure> {
    let held = Held::open(path, Beside::Readers)?;
    let manifest = read_manifest(&held)?;
    for (number, unit) in manifest.units.iter().enumerate() {
        verify_unit(&held, &names::unit(number as u64), unit)?;
    }
    no_other_unit(&held, manifest.units.len() as u64)?;
    Ok(manifest)
}

fn read_manifest(held: &Held) -> Result<Manifest, Failure> {
    let path = held.named(MANIFEST);
    let none = |why: &str| {
        let what = format!(
            "{} {why}, so no run of recomp units ended there",
            path.display()
        );
        Failure::error(format!("{what}; {AGAIN}"))
    };
    let (file, length) = match open(held, MANIFEST)? {
        Found::File(file, length) => (file, length),
        Found::Other => return Err(none("is no plain file")),
        Found::Nothing => return Err(none("is missing")),
    };
    let mut text = String::new();
    if length > LONGEST || file.take(LONGEST).read_to_string(&mut text).is_err() {
        return Err(none("is no manifest"));
    }
    Manifest::parse(&text).ok_or_else(|| none("is no manifest"))
}

/// What has a name in the folder.
enum Found {
    /// A plain file and its length.
    File(File, u64),
    Other,
    Nothing,
}

/// Opens a plain file. What a link leads to is no file of the folder, and a pipe is not waited for.
fn open(held: &Held, name: &str) -> Result<Found, Failure> {
    let path = held.reach(name);
    match fs::symlink_metadata(&path) {
        Ok(data) if data.is_file() => {
            let file = File::open(&path).map_err(|error| cannot_read(held, name, &error))?;
            Ok(Found::File(file, data.len()))
        }
        Ok(_) => Ok(Found::Other),
        Err(error) if error.kind() == ErrorKind::NotFound => Ok(Found::Nothing),
        Err(error) => Err(cannot_read(held, name, &error)),
    }
}

fn cannot_read(held: &Held, name: &str, error: &io::Error) -> Failure {
    let advice = "get the right to read it, then run again";
    Failure::cannot("read", &held.named(name), error, advice)
}

/// The failure for a unit that is not as the manifest says.
fn wrong(held: &Held, name: &str, what: &str, advice: &str) -> Failure {
    let path = held.named(name);
    Failure::refused(format!("recomp: {} {what}; {advice}", path.display()))
}

fn verify_unit(held: &Held, name: &str, unit: &Entry) -> Result<(), Failure> {
    let wrong = |what: &str| Err(wrong(held, name, what, AGAIN));
    let (file, length) = match open(held, name)? {
        Found::File(file, length) => (file, length),
        Found::Other => return wrong("is no plain file"),
        Found::Nothing => return wrong("is missing"),
    };
    let bytes = format!("than {MANIFEST} says: {length} bytes, not {}", unit.length);
    if length > unit.length {
        return wrong(&format!("is longer {bytes}"));
    }
    if length < unit.length {
        return wrong(&format!("is shorter {bytes}"));
    }
    let sum = sum(file).map_err(|error| cannot_read(held, name, &error))?;
    if sum != unit.sum {
        return wrong(&format!(
            "is different from what {MANIFEST} says: its SHA-256 is {sum}"
        ));
    }
    Ok(())
}

/// The SHA-256 sum of a file, in hexadecimal.
fn sum(mut file: File) -> io::Result<String> {
    let mut sum = Sha256::new();
    let mut part = vec![0; PART];
    loop {
        match file.read(&mut part) {
            Ok(0) => return Ok(sha256::hex(&sum.finish())),
            Ok(read) => sum.update(&part[..read]),
            Err(error) if error.kind() == ErrorKind::Interrupted => {}
            Err(error) => return Err(error),
        }
    }
}

/// Fails for the first unit in the folder beyond so many. A folder of such a name is no unit.
fn no_other_unit(held: &Held, count: u64) -> Result<(), Failure> {
    let entries = held.entries()?;
    let files = entries.iter().filter(|entry| !entry.kind.is_dir());
    let numbers = files.filter_map(|entry| entry.unit());
    match numbers.filter(|&unit| unit >= count).min() {
        Some(unit) => {
            let advice = format!("remove it, or {AGAIN}");
            let what = format!("is not in {MANIFEST}");
            Err(wrong(held, &names::unit(unit), &what, &advice))
        }
        None => Ok(()),
    }
}
