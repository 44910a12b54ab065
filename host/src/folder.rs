//! The folder that units are written to. Each is written under a temporary name; all get their
//! names once the last one stands. The manifest is removed before the first is written and gets its
//! name last, so that where there is one, the units are those of the run that wrote it.

use crate::failure::Failure;
use crate::held::{self, Beside, Entry, Held};
use crate::manifest::{self, Manifest};
use crate::names::{self, MANIFEST};
use crate::room::Room;
use crate::sums::Sums;
use crate::threads;
use std::fs;
use std::io::Write;
use std::path::Path;
use std::thread;

/// A folder that takes units one after another, from 0.
pub struct Folder {
    held: Held,
    room: Room,
    /// Files of this run that have their temporary names.
    unnamed: Vec<String>,
    units: Vec<manifest::Entry>,
}

impl Folder {
    /// Makes the folder if there is none, locks it, removes what an interrupted run left, reserves
    /// room for units of these lengths, and removes the manifest.
    pub fn open(path: &Path, lengths: &[u64]) -> Result<Folder, Failure> {
        fs::create_dir_all(path).map_err(|error| {
            Failure::cannot("make the folder", path, error, "name another with -o")
        })?;
        let held = Held::open(path, Beside::Nobody)?;
        let entries = held.entries()?;
        let count = lengths.len() as u64;
        no_folder_among(&held, &entries, |entry| {
            names::is_temporary(&entry.name) || is_written(entry, count)
        })?;
        remove_temporary(&held, &entries)?;
        let manifest = manifest::most_bytes(count);
        let room = Room::reserve(&held, lengths.iter().copied().chain([manifest]))?;
        remove_manifest(&held, &entries)?;
        Ok(Folder {
            held,
            room,
            unnamed: vec![],
            units: vec![],
        })
    }

    /// Writes the next units, and tells the length of each that is written. Another thread begins
    /// with their sums meanwhile, where there is one to be had.
    pub fn write(&mut self, texts: &[&[u8]], tell: impl FnMut(u64)) -> Result<(), Failure> {
        let sums = Sums::of(texts);
        thread::scope(|scope| {
            threads::start(scope, || sums.make());
            self.write_units(texts, tell)?;
            sums.make();
            Ok(())
        })?;
        self.units.extend(sums.entries());
        Ok(())
    }

    fn write_units(&mut self, texts: &[&[u8]], mut tell: impl FnMut(u64)) -> Result<(), Failure> {
        for (text, unit) in texts.iter().zip(self.units.len() as u64..) {
            self.write_temporary(&names::unit(unit), text)?;
            tell(text.len() as u64);
        }
        Ok(())
    }

    /// Writes a file under the temporary name for this one, so that all of it is on the disk.
    fn write_temporary(&mut self, name: &str, text: &[u8]) -> Result<(), Failure> {
        let name = names::temporary(name);
        let mut file = self.held.create(&name)?;
        let path = self.held.named(&name);
        // From here on it is removed after a failure.
        self.unnamed.push(name);
        self.room.give_back(text.len() as u64);
        let written = file.write_all(text).and_then(|()| file.sync_all());
        written.map_err(|error| held::cannot_write(&path, error))
    }

    /// Gives all units their names, removes units that an older run had beyond them, and then gives
    /// the manifest its name. What it says of the units is handed back.
    pub fn finish(mut self, size: u64, blocks: u64) -> Result<Manifest, Failure> {
        let units = std::mem::take(&mut self.units);
        let manifest = Manifest {
            size,
            blocks,
            units,
        };
        // All that takes room on the disk comes before the first renaming.
        self.write_temporary(MANIFEST, manifest.print().as_bytes())?;
        let count = manifest.units.len() as u64;
        let older = self.held.entries()?;
        no_folder_among(&self.held, &older, |entry| is_written(entry, count))?;
        self.name_units(count)?;
        self.remove_beyond(count, &older)?;
        self.held.sync()?;
        self.held.rename(&names::temporary(MANIFEST), MANIFEST)?;
        self.unnamed.clear();
        self.held.sync()?;
        Ok(manifest)
    }

    /// Gives so many units their names, in place of those of an older run.
    fn name_units(&self, count: u64) -> Result<(), Failure> {
        for unit in 0..count {
            let name = names::unit(unit);
            self.held.rename(&names::temporary(&name), &name)?;
        }
        Ok(())
    }

    /// Removes what an older run had beyond so many units.
    fn remove_beyond(&self, count: u64, older: &[Entry]) -> Result<(), Failure> {
        for entry in older {
            if !entry.kind.is_dir() && entry.unit().is_some_and(|unit| unit >= count) {
                self.held.remove(&entry.name)?;
            }
        }
        Ok(())
    }
}

impl Drop for Folder {
    /// After a failure the files that have no name yet are of no use.
    fn drop(&mut self) {
        for name in &self.unnamed {
            // One that cannot be removed now is removed by the next run.
            let _ = fs::remove_file(self.held.reach(name));
        }
    }
}

/// Whether it has the name of the manifest or of one of so many units.
fn is_written(entry: &Entry, count: u64) -> bool {
    entry.name == MANIFEST || entry.unit().is_some_and(|unit| unit < count)
}

/// Fails if a folder has one of the names that are meant: no file can take its place.
fn no_folder_among(
    held: &Held,
    entries: &[Entry],
    meant: impl Fn(&Entry) -> bool,
) -> Result<(), Failure> {
    match entries
        .iter()
        .find(|entry| entry.kind.is_dir() && meant(entry))
    {
        Some(entry) => {
            let advice = "remove what stands there, then run again";
            let path = held.named(&entry.name);
            Err(Failure::cannot(
                "write",
                &path,
                "there is a folder of this name",
                advice,
            ))
        }
        None => Ok(()),
    }
}

/// Removes the temporary files of an interrupted run. A link or pipe under such a name is removed
/// itself.
fn remove_temporary(held: &Held, entries: &[Entry]) -> Result<(), Failure> {
    for entry in entries {
        if names::is_temporary(&entry.name) {
            held.remove(&entry.name)?;
        }
    }
    Ok(())
}

/// Removes the manifest, so that it stands on the disk no longer.
fn remove_manifest(held: &Held, entries: &[Entry]) -> Result<(), Failure> {
    if entries.iter().any(|entry| entry.name == MANIFEST) {
        held.remove(MANIFEST)?;
        held.sync()?;
    }
    Ok(())
}
