//! The original Rust, run on a file by the program `oracle` in the directory that `RECOMP_ORACLE`
//! names, or by programs of our own that are built against its libraries there.

pub mod units;

use crate::listing::{self, Row};
use crate::model;
use crate::pages;
use crate::units::Unit;
use std::path::{Path, PathBuf};
use std::process::Command;

/// Names the directory.
pub const DIRECTORY: &str = "RECOMP_ORACLE";

/// What document 02 changes in the original so far, as options of `oracle`; the programs of
/// `original/` take the same.
pub const MENDS: [&str; 1] = ["--base-mend"];

pub struct Original {
    directory: PathBuf,
    /// Where the file to be read is laid down.
    file: PathBuf,
}

impl Original {
    pub fn new() -> Result<Original, String> {
        let directory = std::env::var_os(DIRECTORY)
            .map(PathBuf::from)
            .ok_or_else(|| format!("{DIRECTORY} does not name a directory"))?;
        let program = directory.join("oracle");
        if !program.is_file() {
            return Err(format!("no program at {}", program.display()));
        }
        let name = format!("recomp-tools-{}.blk", std::process::id());
        let file = std::env::temp_dir().join(name);
        Ok(Original { directory, file })
    }

    /// Builds `original/NAME.rs` against the original's libraries.
    pub fn build(&self, name: &str) -> Result<Program, String> {
        let source = format!("original/{name}.rs");
        let source = Path::new(env!("CARGO_MANIFEST_DIR")).join(source);
        let file = format!("recomp-tools-{name}-{}", std::process::id());
        let program = Program(std::env::temp_dir().join(file));
        let mut rustc = Command::new("rustc");
        rustc.args(["--edition", "2021", "-C", "opt-level=3", "-L"]);
        rustc.arg(&self.directory);
        for library in ["armv4t", "gba_core", "recomp_core"] {
            let path = self.directory.join(format!("lib{library}.rlib"));
            rustc.args(["--extern", &format!("{library}={}", path.display())]);
        }
        let status = rustc.arg("-o").arg(&program.0).arg(source).status();
        match status {
            Ok(status) if status.success() => Ok(program),
            Ok(status) => Err(format!("rustc: {status}")),
            Err(error) => Err(format!("rustc did not start: {error}")),
        }
    }

    /// Lays down the file for the program, until the next one.
    pub fn lay_down(&self, file: &[u8]) -> &Path {
        std::fs::write(&self.file, file).expect("a file for the original to read");
        &self.file
    }

    /// What the program prints for a file that is accepted.
    pub fn run(&self, mode: &str, file: &[u8], more: &[&str]) -> String {
        let path = self.lay_down(file);
        let out = Command::new(self.directory.join("oracle"))
            .args(MENDS)
            .arg(mode)
            .arg(path)
            .args(more)
            .output()
            .expect("the original starts");
        assert!(out.status.success(), "the original ended with {out:?}");
        String::from_utf8(out.stdout).expect("the original prints text")
    }

    /// Group and block index, in emission order.
    pub fn plan(&self, file: &[u8]) -> Vec<[u32; 2]> {
        let text = self.run("plan", file, &[]);
        let pair = |line| numbers(line).map(|n| n as u32);
        text.lines().map(pair).collect()
    }

    /// Key and exit list of every block.
    fn rows(&self, file: &[u8]) -> Vec<Row> {
        let key = |word: &str| u32::from_str_radix(word, 16).expect("a key");
        let row = |line: &str| {
            let (first, exits) = line.split_once(' ').expect("a key and exits");
            let exits = exits.split(' ').filter(|&word| word != "-");
            Row {
                key: key(first),
                exits: exits.map(key).collect(),
            }
        };
        self.run("exits", file, &[]).lines().map(row).collect()
    }

    /// The exit list of every block.
    pub fn exits(&self, file: &[u8]) -> Vec<Vec<u32>> {
        self.rows(file).into_iter().map(|row| row.exits).collect()
    }

    /// The text that follows from its plan and exits; it prints no listing of its own.
    pub fn listing(&self, file: &[u8]) -> String {
        listing::text(&self.rows(file), &self.plan(file))
    }

    /// The pages that follow from its plan and exits, and from how many instructions the file gives
    /// each block; it prints none of its own.
    pub fn pages(&self, file: &[u8]) -> Vec<String> {
        pages::texts(&self.rows(file), &model::counts(file), &self.plan(file))
    }

    /// The units that the program writes at this size.
    pub fn units(&self, file: &[u8], max_bytes: u64) -> Vec<Unit> {
        let directory = self.file.with_extension("units");
        std::fs::create_dir_all(&directory).expect("a directory for the units");
        let unit = |line: &str| {
            let [k, length, done, _] = numbers(line);
            let text = std::fs::read(directory.join(format!("unit_{k}.c"))).expect("a unit");
            assert_eq!(text.len() as u64, length);
            Unit { text, done }
        };
        let wish = max_bytes.to_string();
        let place = directory.to_str().expect("a path in UTF-8");
        let said = self.run("units", file, &[&wish, place]);
        let units = said.lines().map(unit).collect();
        std::fs::remove_dir_all(&directory).expect("the directory made above");
        units
    }
}

/// The numbers of a line, as many as are asked for.
fn numbers<const N: usize>(line: &str) -> [u64; N] {
    let numbers: Vec<u64> = line
        .split(' ')
        .map(|word| word.parse().expect("a number"))
        .collect();
    numbers.try_into().expect("as many numbers")
}

impl Drop for Original {
    fn drop(&mut self) {
        // It may never have been laid down.
        let _ = std::fs::remove_file(&self.file);
    }
}

/// A program built against the original's libraries, which goes when this does.
pub struct Program(PathBuf);

impl Program {
    pub fn path(&self) -> &Path {
        &self.0
    }
}

impl Drop for Program {
    fn drop(&mut self) {
        // It may never have been built.
        let _ = std::fs::remove_file(&self.0);
    }
}
