//! `bench pages`: all pages of the largest files by one call, beside the plan by one call.

use crate::{library, ROUNDS, WARM_UP};
use recomp_tools::file::File;
use recomp_tools::model;
use recomp_tools::pages::{Asked, PageNumbers};
use recomp_tools::timing::median_and_best;
use recomp_tools::trials;
use std::hint::black_box;
use std::time::Instant;

pub fn run() -> Result<(), String> {
    for (name, trial) in trials::timed() {
        let file = trial.file();
        let pages = model::pages(&file.bytes);
        let text = pages.concat();
        println!(
            "{name}: {} blocks, {} instructions, {} bytes in all; {} pages, {} bytes of text",
            file.blocks,
            file.instructions,
            file.bytes.len(),
            pages.len(),
            text.len()
        );
        let expected = PageNumbers {
            number: 0,
            at: 0,
            count: Some(pages.len() as u64),
            length: text.len() as u64,
        };
        measure(&file, expected, text.as_bytes())?;
    }
    Ok(())
}

/// The text lent is exactly as long as all pages.
fn measure(file: &File, expected: PageNumbers, right: &[u8]) -> Result<(), String> {
    let mut work = vec![0; 4 * file.blocks];
    let mut plan = vec![0; 2 * file.blocks];
    let mut text = vec![0; right.len()];
    let mut times = [vec![], vec![]];
    for round in 0..WARM_UP + ROUNDS {
        // The calls take turns, so that a slow spell of the machine falls on both.
        let start = Instant::now();
        let all = Asked::From(1);
        let answer = library::pages(black_box(&file.bytes), all, &mut work, &mut text);
        let pages = start.elapsed().as_secs_f64();
        if answer != expected {
            return Err(format!("{answer:?}, expected {expected:?}"));
        }
        let start = Instant::now();
        black_box(library::plan(black_box(&file.bytes), &mut work, &mut plan));
        let plan = start.elapsed().as_secs_f64();
        if round >= WARM_UP {
            for (times, time) in times.iter_mut().zip([pages, plan]) {
                times.push(time);
            }
        }
    }
    if text != right {
        return Err("the library's pages are not the model's".into());
    }
    report(times);
    Ok(())
}

fn report(times: [Vec<f64>; 2]) {
    let [pages, plan] = times.map(median_and_best);
    for (name, [median, best]) in [("all pages", pages), ("plan", plan)] {
        println!("  {name:10} median {median:.6} s   best {best:.6} s");
    }
    println!(
        "  all pages / plan: median {:.2}, best {:.2}; {ROUNDS} rounds each",
        pages[0] / plan[0],
        pages[1] / plan[1]
    );
}
