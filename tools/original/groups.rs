//! Times the grouping of the original Rust on a block file. It is built against the libraries of
//! the original, not by cargo: `bench plan` does that.
//!
//!   groups FILE [CHANGES OF DOCUMENT 02]
//!
//! FILE must be accepted. For every line of standard input the blocks are grouped once, and the
//! nanoseconds that it took are printed; after the last line, `group block` for each block.

mod decode;
mod mends;

use recomp_core::emit::oracle_groups;
use std::hint::black_box;
use std::io::{stdin, stdout, BufRead, Write};
use std::time::Instant;

fn main() {
    let mut words = std::env::args().skip(1);
    let path = words.next().expect("FILE");
    mends::set(words);
    let file = std::fs::read(path).expect("FILE can be read");
    let blocks = decode::blocks(&file);
    let mut out = stdout();
    for _ in stdin().lock().lines() {
        let start = Instant::now();
        let groups = black_box(oracle_groups(black_box(&blocks)));
        let taken = start.elapsed().as_nanos();
        drop(groups);
        writeln!(out, "{taken}").expect("a reader");
        out.flush().expect("a reader");
    }
    let mut text = String::new();
    for (g, members) in oracle_groups(&blocks).iter().enumerate() {
        for block in members {
            text += &format!("{g} {block}\n");
        }
    }
    print!("{text}");
}
