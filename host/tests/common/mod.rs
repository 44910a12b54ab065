//! What the tests share: the program, folders that go away, and block files.

// Each file of tests uses some of it.
#![allow(dead_code)]

pub mod repository;
pub mod stop;

use recomp_host::library;
use recomp_tools::file::{build, Block, File};
use recomp_tools::record::Record;
use std::ffi::OsStr;
use std::io::Write;
use std::path::{Path, PathBuf};
use std::process::{Command, Output, Stdio};
use std::sync::atomic::{AtomicU32, Ordering};

pub const PROGRAM: &str = env!("CARGO_BIN_EXE_recomp");

/// The commands that read a block file and print.
pub const READING: [&str; 7] = [
    "measure", "check", "plan", "page", "exits", "listing", "reasons",
];

/// What a run came to.
#[derive(Debug, PartialEq, Eq)]
pub struct Run {
    pub status: Option<i32>,
    pub out: String,
    pub err: String,
}

impl Run {
    pub fn of(output: Output) -> Run {
        Run {
            status: output.status.code(),
            out: String::from_utf8(output.stdout).expect("output is UTF-8"),
            err: String::from_utf8(output.stderr).expect("errors are UTF-8"),
        }
    }

    /// What was printed by a run that went well.
    #[track_caller]
    pub fn printed(self) -> String {
        assert_eq!((self.status, self.err.as_str()), (Some(0), ""));
        self.out
    }

    /// The one line on standard error of a run that failed with this status.
    #[track_caller]
    pub fn failed(self, status: i32) -> String {
        assert_eq!(
            (self.status, self.out.as_str()),
            (Some(status), ""),
            "{}",
            self.err
        );
        let line = self.err.strip_suffix('\n').expect("a line ends");
        assert!(!line.contains('\n'), "one line: {line}");
        line.into()
    }
}

pub fn program<A: AsRef<OsStr>>(args: &[A]) -> Command {
    let mut command = Command::new(PROGRAM);
    command.args(args).stdin(Stdio::null());
    command
}

pub fn recomp<A: AsRef<OsStr>>(args: &[A]) -> Run {
    Run::of(program(args).output().expect("the program runs"))
}

/// A run with so many KiB of memory. One that does not end by itself is ended.
pub fn with_memory(kib: u64, args: &[&str]) -> Run {
    let script = format!("ulimit -v {kib}; exec timeout 60 \"$0\" \"$@\"");
    let mut shell = Command::new("sh");
    shell.args(["-c", &script, PROGRAM]).args(args);
    Run::of(shell.output().expect("the shell runs"))
}

/// A run with these bytes on standard input.
pub fn recomp_on(bytes: &[u8], args: &[&str]) -> Run {
    let mut command = program(args);
    command.stdin(Stdio::piped());
    command.stdout(Stdio::piped()).stderr(Stdio::piped());
    let mut child = command.spawn().expect("the program starts");
    let mut input = child.stdin.take().expect("a pipe");
    let bytes = bytes.to_vec();
    // A program that ends before it has read all closes the pipe.
    let writer = std::thread::spawn(move || input.write_all(&bytes));
    let output = child.wait_with_output().expect("the program ends");
    let _ = writer.join().expect("the writer ends");
    Run::of(output)
}

/// A folder of its own for a test, removed at the end.
pub struct Scratch(PathBuf);

impl Scratch {
    pub fn new() -> Scratch {
        static COUNT: AtomicU32 = AtomicU32::new(0);
        let n = COUNT.fetch_add(1, Ordering::Relaxed);
        let path = std::env::temp_dir().join(format!("recomp-test-{}-{n}", std::process::id()));
        std::fs::create_dir_all(&path).expect("a folder");
        Scratch(path)
    }

    pub fn path(&self) -> &Path {
        &self.0
    }

    pub fn join(&self, name: &str) -> String {
        self.0.join(name).to_str().expect("a path in UTF-8").into()
    }

    /// A file with these bytes, by its path.
    pub fn file(&self, name: &str, bytes: &[u8]) -> String {
        let path = self.join(name);
        std::fs::write(&path, bytes).expect("a file");
        path
    }
}

impl Drop for Scratch {
    fn drop(&mut self) {
        let _ = std::fs::remove_dir_all(&self.0);
    }
}

/// Copies a file or folder to a path or into a folder, by a process of its own: a program that is
/// written by this one could not be run while another test starts a process, which has it open too.
pub fn copy(from: &Path, to: &Path) {
    let copied = Command::new("cp").arg("-R").arg(from).arg(to).status();
    assert!(copied.expect("cp runs").success());
}

/// The names in a folder, sorted.
pub fn names(folder: &str) -> Vec<String> {
    let entries = std::fs::read_dir(folder).expect("a folder");
    let name = |entry: std::io::Result<std::fs::DirEntry>| {
        let name = entry.expect("an entry").file_name();
        name.into_string().expect("a name in UTF-8")
    };
    let mut names: Vec<_> = entries.map(name).collect();
    names.sort();
    names
}

/// The units of a file at a size, from the library's calls alone: each is measured, then written.
pub fn expected(file: &[u8], size: u64) -> Vec<Vec<u8>> {
    let counts = library::check(file).expect("an accepted file");
    let mut work = vec![0; 4 * counts.blocks as usize];
    let mut units = vec![];
    loop {
        let told = library::measure(file, size, units.len() as u64, &mut work);
        let told = told.expect("a unit");
        let mut text = vec![0; told.length as usize];
        let written = library::write(file, size, told, &mut work, &mut text);
        assert_eq!(written, Ok(()));
        units.push(text);
        if told.last == 1 {
            assert_eq!(told.done, counts.blocks);
            return units;
        }
    }
}

pub fn read(folder: &str, name: &str) -> Vec<u8> {
    std::fs::read(Path::new(folder).join(name)).expect("a file")
}

/// Names and contents of all files in a folder.
pub fn contents(folder: &str) -> Vec<(String, Vec<u8>)> {
    let content = |name: String| (name.clone(), read(folder, &name));
    names(folder).into_iter().map(content).collect()
}

/// Whether a folder has the units of a file and their manifest, and nothing else.
pub fn has_units(folder: &str, file: &[u8], size: u64) -> bool {
    let units = expected(file, size);
    let all: Vec<_> = (0..units.len()).map(|n| format!("unit_{n:03}.c")).collect();
    names(folder) == [&all[..], &["units.txt".into()]].concat()
        && all
            .iter()
            .zip(&units)
            .all(|(name, unit)| read(folder, name) == *unit)
}

/// Looks at all that a run left in its folder, and at what it printed.
#[track_caller]
pub fn assert_units(run: Run, folder: &str, file: &[u8], size: u64) {
    let units = expected(file, size);
    let bytes: usize = units.iter().map(Vec::len).sum();
    let blocks = library::check(file).expect("an accepted file").blocks;
    let totals = format!("units {}, blocks {blocks}, bytes {bytes}\n", units.len());
    assert_eq!(run.printed(), totals);
    assert!(has_units(folder, file, size), "{:?}", names(folder));
    assert_eq!(
        recomp(&["verify", folder]).printed(),
        format!("verified: {totals}")
    );
}

/// An ARM block of one instruction, without code bytes.
pub fn lone(address: u32, record: Record) -> Block {
    Block {
        address,
        thumb: false,
        code: None,
        records: vec![record],
    }
}

/// So many ARM blocks, one after the other, that lead nowhere: each is a group of its own.
pub fn lone_blocks(count: u32) -> File {
    lone_blocks_of(count, Record::bx(14))
}

/// The same with an instruction in each that goes to a shell: its sentence has 27 bytes.
pub fn lone_shells(count: u32) -> File {
    lone_blocks_of(count, Record::swi([0; 12]))
}

fn lone_blocks_of(count: u32, record: Record) -> File {
    let blocks: Vec<_> = (0..count)
        .map(|n| lone(0x0800_0000 + 4 * n, record))
        .collect();
    build(&blocks)
}

/// The repository's folder.
pub fn root() -> &'static Path {
    Path::new(env!("CARGO_MANIFEST_DIR"))
        .parent()
        .expect("the repository")
}

pub fn sample(name: &str) -> String {
    let path = root().join("samples").join(name);
    path.to_str().expect("a path in UTF-8").into()
}
