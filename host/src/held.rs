//! A folder that is held: opened, locked as long as this program runs, and reached by what was
//! opened, so that a folder that takes its path meanwhile is left alone. The lock is the system's
//! own on the folder: it needs no file, and ends with the program, however that ends.

use crate::failure::Failure;
use crate::names::{self, MANIFEST};
use std::fs::{self, File, FileType, TryLockError};
use std::io::{self, ErrorKind};
use std::os::fd::AsRawFd;
use std::path::{Path, PathBuf};

/// Who may hold the folder beside this program.
#[derive(Clone, Copy, PartialEq, Eq)]
pub enum Beside {
    Nobody,
    /// Those who read it too.
    Readers,
}

pub struct Held {
    folder: File,
    /// As messages name it.
    named: PathBuf,
    /// The path that files are reached by.
    reached: PathBuf,
}

/// A file or other thing in the folder.
pub struct Entry {
    pub name: String,
    pub kind: FileType,
}

impl Entry {
    /// The unit that it has the name of.
    pub fn unit(&self) -> Option<u64> {
        names::number(&self.name)
    }
}

impl Held {
    pub fn open(path: &Path, beside: Beside) -> Result<Held, Failure> {
        // The dot refuses all but folders: a pipe of this name would be waited for.
        let folder = File::open(path.join("."))
            .map_err(|error| Failure::cannot("open", path, error, "name a folder of units"))?;
        lock(&folder, path, beside)?;
        Ok(Held {
            reached: reached_by(&folder).unwrap_or(path.into()),
            folder,
            named: path.into(),
        })
    }

    /// The path of the folder in messages.
    pub fn path(&self) -> &Path {
        &self.named
    }

    /// The path of a file in messages.
    pub fn named(&self, name: &str) -> PathBuf {
        self.named.join(name)
    }

    /// The path to open a file by.
    pub fn reach(&self, name: &str) -> PathBuf {
        self.reached.join(name)
    }

    /// All that stands in the folder, but for names that are not UTF-8.
    pub fn entries(&self) -> Result<Vec<Entry>, Failure> {
        self.list().map_err(|error| {
            let advice = "get the right to read it, then run again";
            Failure::cannot("read", &self.named, error, advice)
        })
    }

    fn list(&self) -> io::Result<Vec<Entry>> {
        let mut entries = vec![];
        for entry in fs::read_dir(&self.reached)? {
            let entry = entry?;
            if let Ok(name) = entry.file_name().into_string() {
                let kind = entry.file_type()?;
                entries.push(Entry { name, kind });
            }
        }
        Ok(entries)
    }

    /// Makes a file that is not there yet. Nothing that stands under its name is opened.
    pub fn create(&self, name: &str) -> Result<File, Failure> {
        let mut options = File::options();
        let made = options.write(true).create_new(true).open(self.reach(name));
        made.map_err(|error| cannot_write(&self.named(name), error))
    }

    /// Makes a file that has no name, but for a moment a temporary one.
    pub fn create_unnamed(&self) -> Result<File, Failure> {
        let name = names::temporary(MANIFEST);
        let file = self.create(&name)?;
        self.remove(&name)?;
        Ok(file)
    }

    /// Gives a file another name, in place of what has it.
    pub fn rename(&self, from: &str, to: &str) -> Result<(), Failure> {
        fs::rename(self.reach(from), self.reach(to)).map_err(|error| {
            let advice = "remove what stands there, then run again";
            Failure::cannot("write", &self.named(to), error, advice)
        })
    }

    /// Removes a file, or a link itself.
    pub fn remove(&self, name: &str) -> Result<(), Failure> {
        fs::remove_file(self.reach(name)).map_err(|error| {
            let advice = "get the right to write there, then run again";
            Failure::cannot("remove", &self.named(name), error, advice)
        })
    }

    /// Has the names in the folder stand on the disk as they are now.
    pub fn sync(&self) -> Result<(), Failure> {
        match self.folder.sync_all() {
            // What a file system answers that has no such thing for folders.
            Err(error) if error.kind() == ErrorKind::InvalidInput => Ok(()),
            Err(error) => {
                let advice = "see that the disk works, then run again";
                Err(Failure::cannot("write", &self.named, error, advice))
            }
            Ok(()) => Ok(()),
        }
    }
}

/// The failure of making or writing a file.
pub fn cannot_write(path: &Path, error: io::Error) -> Failure {
    let advice = match error.kind() {
        ErrorKind::AlreadyExists => "remove what stands there, then run again",
        ErrorKind::NotFound => "see that the folder stays where it is, then run again",
        _ => "make room or get the right to write there, then run again",
    };
    Failure::cannot("write", path, error, advice)
}

fn lock(folder: &File, path: &Path, beside: Beside) -> Result<(), Failure> {
    let locked = match beside {
        Beside::Nobody => folder.try_lock(),
        Beside::Readers => folder.try_lock_shared(),
    };
    locked.map_err(|error| match error {
        TryLockError::WouldBlock => {
            let path = path.display();
            let what = format!("another run of recomp is at work in {path}");
            Failure::error(format!(
                "{what}; wait until it ends, or name another folder"
            ))
        }
        TryLockError::Error(error) => {
            let advice = "name a folder on a disk of this machine";
            Failure::cannot("lock", path, error, advice)
        }
    })
}

/// The path that leads to an open folder, whatever its name is meanwhile, where the system has one.
fn reached_by(folder: &File) -> Option<PathBuf> {
    let path = PathBuf::from(format!("/proc/self/fd/{}", folder.as_raw_fd()));
    path.is_dir().then_some(path)
}
