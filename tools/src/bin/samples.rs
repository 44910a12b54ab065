//! Writes the sample block files into the folder given.

use recomp_tools::samples::all;
use std::path::Path;
use std::process::ExitCode;

fn main() -> ExitCode {
    let Some(folder) = std::env::args().nth(1) else {
        eprintln!("usage: samples FOLDER");
        return ExitCode::from(2);
    };
    for (name, bytes) in all() {
        let path = Path::new(&folder).join(name);
        if let Err(error) = std::fs::write(&path, bytes) {
            eprintln!("{}: {error}", path.display());
            return ExitCode::FAILURE;
        }
    }
    ExitCode::SUCCESS
}
