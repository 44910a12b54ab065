//! `bench plan`: the plan of the largest files, the proved library against the original.
//!
//! The original's grouping is timed by `original/groups.rs`, which is built here against the
//! original's libraries: it gets decoded blocks, where the library gets the file and checks it
//! first. So the check alone is timed as well.

use crate::{library, ROUNDS, WARM_UP};
use recomp_tools::file::File;
use recomp_tools::original::{Original, Program, MENDS};
use recomp_tools::timing::median_and_best;
use recomp_tools::trials;
use std::hint::black_box;
use std::io::{BufRead, BufReader, Write};
use std::path::Path;
use std::process::{Child, Command, Stdio};
use std::time::Instant;

pub fn run() -> Result<(), String> {
    let original = Original::new()?;
    let program = original.build("groups")?;
    for (name, trial) in trials::timed() {
        let file = trial.file();
        println!(
            "{name}: {} blocks, {} instructions, {} bytes in all",
            file.blocks,
            file.instructions,
            file.bytes.len()
        );
        measure(&original, &program, &file)?;
        let whole = original.run("bench", &file.bytes, &["1000000"]);
        println!("  original, units and all: {}", whole.trim());
    }
    Ok(())
}

fn measure(original: &Original, program: &Program, file: &File) -> Result<(), String> {
    let path = original.lay_down(&file.bytes);
    let mut groups = Groups::start(program, path)?;
    let mut work = vec![0; 4 * file.blocks];
    let mut plan = vec![0; 2 * file.blocks];
    let mut times = [vec![], vec![], vec![]];
    for round in 0..WARM_UP + ROUNDS {
        // The sides take turns, so that a slow spell of the machine falls on all.
        let start = Instant::now();
        let answer = black_box(library::plan(black_box(&file.bytes), &mut work, &mut plan));
        let library = start.elapsed().as_secs_f64();
        assert_eq!((answer.number, answer.blocks), (0, file.blocks as u64));
        let start = Instant::now();
        black_box(library::check(black_box(&file.bytes)));
        let check = start.elapsed().as_secs_f64();
        let original = groups.round()?;
        if round >= WARM_UP {
            for (times, time) in times.iter_mut().zip([library, check, original]) {
                times.push(time);
            }
        }
    }
    if groups.plan()? != plan {
        return Err("the library's plan is not the original's".into());
    }
    report(times);
    Ok(())
}

fn report(times: [Vec<f64>; 3]) {
    let milliseconds = |seconds: f64| 1e3 * seconds;
    let [library, check, original] = times.map(|times| median_and_best(times).map(milliseconds));
    for (name, [median, best]) in [
        ("library, plan", library),
        ("library, check alone", check),
        ("original, chain_groups", original),
    ] {
        println!("  {name:24} median {median:8.3} ms   best {best:8.3} ms");
    }
    println!(
        "  library / original: median {:.2}, best {:.2}; without the check: median {:.2}; {ROUNDS} rounds each",
        library[0] / original[0],
        library[1] / original[1],
        (library[0] - check[0]) / original[0]
    );
}

/// The program of `original/groups.rs` at work on a file.
struct Groups {
    child: Child,
    lines: std::io::Lines<BufReader<std::process::ChildStdout>>,
}

impl Groups {
    fn start(program: &Program, file: &Path) -> Result<Groups, String> {
        let mut child = Command::new(program.path())
            .arg(file)
            .args(MENDS)
            .stdin(Stdio::piped())
            .stdout(Stdio::piped())
            .spawn()
            .map_err(|error| format!("groups did not start: {error}"))?;
        let lines = BufReader::new(child.stdout.take().expect("piped")).lines();
        Ok(Groups { child, lines })
    }

    /// Seconds of one round.
    fn round(&mut self) -> Result<f64, String> {
        let mut input = self.child.stdin.as_ref().expect("piped");
        input.write_all(b"\n").map_err(|error| error.to_string())?;
        let line = self.lines.next().and_then(Result::ok).unwrap_or_default();
        let nanoseconds: f64 = line.parse().map_err(|_| format!("groups: {line:?}"))?;
        Ok(nanoseconds / 1e9)
    }

    /// Ends the rounds: the original's plan.
    fn plan(mut self) -> Result<Vec<u32>, String> {
        drop(self.child.stdin.take());
        let mut plan = vec![];
        for line in self.lines {
            let line = line.map_err(|error| error.to_string())?;
            for word in line.split(' ') {
                plan.push(word.parse().map_err(|_| format!("groups: {line:?}"))?);
            }
        }
        self.child.wait().map_err(|error| error.to_string())?;
        Ok(plan)
    }
}
