//! Runs the emitter of the original Rust on many block files in one process. It is built against
//! the libraries of the original, not by cargo: `src/original/units.rs` does that.
//!
//! Numbers are little-endian and have 64 bits. Standard input has the number of files, for each its
//! length and bytes, and then questions of four numbers each: what is asked, the file's number,
//! max_bytes, and after how many units the emitter is stopped. All files come before the first
//! question, since the libraries take the costs of instructions once. They must be accepted.
//!
//! - Asked 0: for each unit 1, its length, the blocks done and the text; then 0.
//! - Asked 1: the nanoseconds that it took, units and bytes.
//!
//! Its arguments name what document 02 changes in the original (`mends.rs`).

mod decode;
mod mends;

use recomp_core::analyze::{Analysis, View};
use recomp_core::emit::{emit_c_chunked, oracle_groups};
use std::cell::Cell;
use std::hint::black_box;
use std::io::{self, stdin, stdout, BufReader, BufWriter, ErrorKind, Read, Write};
use std::time::Instant;

const TEXT: u64 = 0;
const TIME: u64 = 1;

/// A file's blocks, and the code bytes of each or their absence.
struct Decoded<'a> {
    analysis: Analysis,
    code: Vec<Option<&'a [u8]>>,
    groups: Vec<Vec<usize>>,
}

impl<'a> Decoded<'a> {
    fn new(file: &'a [u8]) -> Decoded<'a> {
        let blocks = decode::blocks(file);
        let code = decode::records(file).map(|(block, own)| {
            let [flags, offset] = [4, 12].map(|at| decode::word(block, at));
            let size = if flags & 1 != 0 { 2 } else { 4 };
            let bytes = &file[offset as usize..];
            (flags & 2 != 0).then(|| &bytes[..own.len() / 16 * size])
        });
        Decoded {
            groups: oracle_groups(&blocks),
            code: code.collect(),
            analysis: Analysis { blocks },
        }
    }

    /// What the emitter will ask for: the code bytes of blocks outside regions 0 and 8, in the order
    /// of emission.
    fn view(&self) -> View<'a> {
        let mut answers = vec![];
        for &i in self.groups.iter().flatten() {
            let block = &self.analysis.blocks[i];
            if !matches!(block.addr >> 24 & 15, 0 | 8) {
                let size = if block.thumb { 2 } else { 4 };
                answers.push((block.addr, block.instrs.len() * size, self.code[i]));
            }
        }
        View {
            answers,
            asked: Cell::new(0),
        }
    }

    /// Hands the units on, until so many have been.
    fn emit(&self, view: &View, max_bytes: u64, most: u64, mut sink: impl FnMut(&str, usize)) {
        let mut units = 0;
        // An error is how the sink stops the emitter; it has none of its own.
        let _ = emit_c_chunked(&self.analysis, view, max_bytes as usize, |unit, done| {
            sink(unit, done);
            units += 1;
            if units == most {
                return Err(String::new());
            }
            Ok(())
        });
    }

    fn text(&self, out: &mut impl Write, max_bytes: u64, most: u64) {
        self.emit(&self.view(), max_bytes, most, |unit, done| {
            put(out, &[1, unit.len() as u64, done as u64]);
            out.write_all(unit.as_bytes()).expect("a reader");
        });
        put(out, &[0]);
    }

    fn time(&self, out: &mut impl Write, max_bytes: u64, most: u64) {
        let view = self.view();
        let [mut units, mut bytes] = [0, 0];
        let start = Instant::now();
        self.emit(&view, max_bytes, most, |unit, _| {
            units += 1;
            bytes += black_box(unit).len() as u64;
        });
        let taken = start.elapsed().as_nanos() as u64;
        put(out, &[taken, units, bytes]);
    }
}

fn put(out: &mut impl Write, numbers: &[u64]) {
    for number in numbers {
        out.write_all(&number.to_le_bytes()).expect("a reader");
    }
}

fn number(input: &mut impl Read) -> io::Result<u64> {
    let mut bytes = [0; 8];
    input.read_exact(&mut bytes)?;
    Ok(u64::from_le_bytes(bytes))
}

fn files(input: &mut impl Read) -> io::Result<Vec<Vec<u8>>> {
    let count = number(input)?;
    (0..count)
        .map(|_| {
            let mut file = vec![0; number(input)? as usize];
            input.read_exact(&mut file)?;
            Ok(file)
        })
        .collect()
}

/// Lays down the costs of all instructions, once.
fn set_costs(files: &[Vec<u8>], decoded: &[Decoded]) {
    let cost = |record: &[u8]| u16::from_le_bytes([record[2], record[3]]);
    let costs = files.iter().flat_map(|file| decode::records(file));
    let costs = costs.map(|(_, own)| own.chunks(16).map(cost).collect());
    let blocks = decoded.iter().flat_map(|file| &file.analysis.blocks);
    gba_core::set_costs(blocks.map(|block| &block.instrs[..]).zip(costs));
}

fn main() {
    mends::set(std::env::args().skip(1));
    let mut input = BufReader::new(stdin().lock());
    let mut out = BufWriter::with_capacity(1 << 16, stdout().lock());
    let files = files(&mut input).expect("files");
    let decoded: Vec<Decoded> = files.iter().map(|file| Decoded::new(file)).collect();
    set_costs(&files, &decoded);
    loop {
        let asked = match number(&mut input) {
            Ok(asked) => asked,
            Err(error) if error.kind() == ErrorKind::UnexpectedEof => return,
            Err(error) => panic!("{error}"),
        };
        let [file, max_bytes, most] = [0; 3].map(|_| number(&mut input).expect("a question"));
        let file = &decoded[file as usize];
        match asked {
            TEXT => file.text(&mut out, max_bytes, most),
            TIME => file.time(&mut out, max_bytes, most),
            _ => panic!("asked {asked}"),
        }
        out.flush().expect("a reader");
    }
}
