//! Holds crates.txt of the repository against the sources; prints what does not fit, status 1.

use recomp_tools::floors::faults_of;
use std::path::Path;
use std::process::ExitCode;

fn main() -> ExitCode {
    let root = Path::new(env!("CARGO_MANIFEST_DIR")).join("..");
    match faults_of(&root) {
        Ok(faults) if faults.is_empty() => ExitCode::SUCCESS,
        Ok(faults) => {
            for fault in faults {
                println!("crates.txt: {fault}");
            }
            ExitCode::FAILURE
        }
        Err(error) => {
            eprintln!("crates.txt and crates/ could not be read: {error}");
            ExitCode::from(2)
        }
    }
}
