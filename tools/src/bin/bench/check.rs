//! `bench check`: the check of the largest file, the proved library against plain Rust.

use crate::{library, ROUNDS, WARM_UP};
use recomp_tools::check::{check, Numbers};
use recomp_tools::generate::{file, Params};
use recomp_tools::timing::median_and_best;
use std::hint::black_box;
use std::time::Instant;

type Side = (&'static str, fn(&[u8]) -> Numbers);

const SIDES: [Side; 2] = [
    ("library", library::check),
    ("rust", |file| check(file).into()),
];

pub fn run() {
    let file = file(&Params::largest(1));
    println!(
        "{} blocks, {} instructions, {} code bytes, {} bytes in all",
        file.blocks,
        file.instructions,
        file.code_len,
        file.bytes.len()
    );
    let expected = Numbers {
        number: 0,
        at: 0,
        blocks: file.blocks as u64,
        instructions: file.instructions as u64,
    };
    report(measure(&file.bytes, expected), file.bytes.len());
}

/// Seconds of each side.
fn measure(bytes: &[u8], expected: Numbers) -> [Vec<f64>; 2] {
    let mut times = [vec![], vec![]];
    for round in 0..WARM_UP + ROUNDS {
        // The sides take turns, so that a slow spell of the machine falls on both.
        for ((name, check), times) in SIDES.iter().zip(&mut times) {
            let start = Instant::now();
            let answer = black_box(check(black_box(bytes)));
            let seconds = start.elapsed().as_secs_f64();
            assert_eq!(answer, expected, "{name}");
            if round >= WARM_UP {
                times.push(seconds);
            }
        }
    }
    times
}

fn report(times: [Vec<f64>; 2], bytes: usize) {
    let medians_and_bests = times.map(median_and_best);
    for ((name, _), both) in SIDES.iter().zip(&medians_and_bests) {
        let [median, best] = both.map(|seconds| {
            let rate = bytes as f64 / seconds / 1e6;
            format!("{:7.3} ms, {rate:5.0} MB/s", seconds * 1e3)
        });
        println!("{name:8} median {median}   best {best}");
    }
    let [library, rust] = medians_and_bests;
    println!(
        "library / rust: median {:.2}, best {:.2}, {ROUNDS} rounds each",
        library[0] / rust[0],
        library[1] / rust[1]
    );
}
