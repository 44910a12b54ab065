//! The original's emitter on many files in one process, by the program of `original/units.rs`, where
//! the questions and answers are described.

use super::{Program, MENDS};
use crate::units::Unit;
use std::io::{BufReader, Read, Write};
use std::process::{Child, ChildStdout, Command, Stdio};

const TEXT: u64 = 0;
const TIME: u64 = 1;

/// No limit to the units wanted.
const ALL: u64 = u64::MAX;

/// The program at work on some accepted files.
pub struct Emitter {
    child: Child,
    output: BufReader<ChildStdout>,
}

/// One run of the emitter, its text thrown away.
#[derive(Clone, Copy, Debug)]
pub struct Timed {
    pub seconds: f64,
    pub units: u64,
    pub bytes: u64,
}

impl Emitter {
    pub fn start(program: &Program, files: &[&[u8]]) -> Emitter {
        let mut child = Command::new(program.path())
            .args(MENDS)
            .stdin(Stdio::piped())
            .stdout(Stdio::piped())
            .spawn()
            .expect("the original's emitter starts");
        let output = BufReader::with_capacity(1 << 16, child.stdout.take().expect("piped"));
        let mut emitter = Emitter { child, output };
        let mut input = numbers(&[files.len() as u64]);
        for file in files {
            input.extend_from_slice(&numbers(&[file.len() as u64]));
            input.extend_from_slice(file);
        }
        emitter.put(&input);
        emitter
    }

    /// All units of file `file` at this size.
    pub fn units(&mut self, file: usize, max_bytes: u64) -> Vec<Unit> {
        self.put(&numbers(&[TEXT, file as u64, max_bytes, ALL]));
        let mut units = vec![];
        while self.number() == 1 {
            let [length, done] = [0; 2].map(|_| self.number());
            let mut text = vec![0; length as usize];
            self.output.read_exact(&mut text).expect("a text");
            units.push(Unit { text, done });
        }
        units
    }

    /// The time for the first `most` units of file `file` at this size, or for all if there are
    /// fewer.
    pub fn time(&mut self, file: usize, max_bytes: u64, most: u64) -> Timed {
        self.put(&numbers(&[TIME, file as u64, max_bytes, most]));
        let [nanoseconds, units, bytes] = [0; 3].map(|_| self.number());
        Timed {
            seconds: nanoseconds as f64 / 1e9,
            units,
            bytes,
        }
    }

    fn put(&mut self, bytes: &[u8]) {
        let mut input = self.child.stdin.as_ref().expect("piped");
        input
            .write_all(bytes)
            .expect("the original's emitter reads");
    }

    fn number(&mut self) -> u64 {
        let mut bytes = [0; 8];
        let read = self.output.read_exact(&mut bytes);
        read.expect("the original's emitter answers");
        u64::from_le_bytes(bytes)
    }
}

impl Drop for Emitter {
    fn drop(&mut self) {
        // It may still be at an answer that nobody reads.
        let _ = self.child.kill();
        let _ = self.child.wait();
    }
}

fn numbers(numbers: &[u64]) -> Vec<u8> {
    numbers.iter().flat_map(|n| n.to_le_bytes()).collect()
}
