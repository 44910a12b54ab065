//! Prints the definitions that the promises of the public calls and of the listing program rest on:
//! a line for each file with how many lines it has of them, and the sum.

use recomp_tools::believed::Definitions;
use std::path::Path;
use std::process::ExitCode;

fn main() -> ExitCode {
    let root = Path::new(env!("CARGO_MANIFEST_DIR")).join("..");
    let names = std::env::args().any(|a| a == "--names");
    let read = Definitions::read(&root).and_then(|all| all.reached(&root, &["recomp"]));
    let counted = match read {
        Ok(counted) => counted,
        Err(error) => {
            eprintln!("crates/ could not be read: {error}");
            return ExitCode::from(2);
        }
    };
    for file in &counted {
        println!("{} {}", file.lines, file.module);
        if names {
            println!("    {}", file.names.join(" "));
        }
    }
    let sum = |types: bool| -> usize {
        let files = counted
            .iter()
            .filter(|c| c.module.ends_with("/src") == types);
        files.map(|c| c.lines).sum()
    };
    println!("{} in specs, {} of types in src", sum(false), sum(true));
    ExitCode::SUCCESS
}
