//! `bench reasons`: all sentences of the largest files by one call, beside the check of the same
//! file, and the original's whole run.

use crate::{library, ROUNDS, WARM_UP};
use recomp_tools::file::File;
use recomp_tools::original::Original;
use recomp_tools::reasons::{sentences, Asked, ReasonNumbers};
use recomp_tools::timing::median_and_best;
use recomp_tools::trials;
use std::hint::black_box;
use std::time::Instant;

pub fn run() -> Result<(), String> {
    let original = Original::new()?;
    for (name, trial) in trials::timed() {
        let file = trial.file();
        let said: Vec<String> = sentences(&file.bytes).into_iter().flatten().collect();
        let text: String = said
            .iter()
            .map(|sentence| format!("{sentence}\n"))
            .collect();
        println!(
            "{name}: {} blocks, {} instructions, {} bytes in all; {} sentences, {} bytes of text",
            file.blocks,
            file.instructions,
            file.bytes.len(),
            said.len(),
            text.len()
        );
        measure(&file, text.as_bytes())?;
        let whole = original.run("bench", &file.bytes, &["1000000"]);
        println!("  original, units and all: {}", whole.trim());
    }
    Ok(())
}

/// The text lent is exactly as long as all lines.
fn measure(file: &File, right: &[u8]) -> Result<(), String> {
    let expected = ReasonNumbers {
        number: 0,
        at: 0,
        next: Some(file.instructions as u64),
        length: right.len() as u64,
    };
    let mut text = vec![0; right.len()];
    let mut times = [vec![], vec![]];
    for round in 0..WARM_UP + ROUNDS {
        // The calls take turns, so that a slow spell of the machine falls on both.
        let start = Instant::now();
        let answer = library::reasons(black_box(&file.bytes), Asked::From(0), &mut text);
        let reasons = start.elapsed().as_secs_f64();
        if answer != expected {
            return Err(format!("{answer:?}, expected {expected:?}"));
        }
        let start = Instant::now();
        black_box(library::check(black_box(&file.bytes)));
        let check = start.elapsed().as_secs_f64();
        if round >= WARM_UP {
            for (times, time) in times.iter_mut().zip([reasons, check]) {
                times.push(time);
            }
        }
    }
    if text != right {
        return Err("the library's sentences are not the model's".into());
    }
    report(times);
    Ok(())
}

fn report(times: [Vec<f64>; 2]) {
    let [reasons, check] = times.map(|times| median_and_best(times).map(|seconds| 1e3 * seconds));
    for (name, [median, best]) in [("all sentences", reasons), ("check", check)] {
        println!("  {name:14} median {median:8.3} ms   best {best:8.3} ms");
    }
    println!(
        "  all sentences / check: median {:.2}, best {:.2}; {ROUNDS} rounds each",
        reasons[0] / check[0],
        reasons[1] / check[1]
    );
}
