//! Why a command failed: an exit status, and a line for standard error that says what to do.

use std::fmt::Display;
use std::path::Path;

#[derive(Clone, Debug, PartialEq, Eq)]
pub enum Failure {
    Said {
        status: u8,
        line: String,
    },
    /// Whoever reads standard output ended first, of which nothing is said.
    NobodyReads,
}

/// The status for a refused file, and for units that are not those of their manifest.
const REFUSED: u8 = 1;

/// The status for wrong arguments and for input and output that failed.
const ERROR: u8 = 2;

impl Failure {
    pub fn refused(line: String) -> Failure {
        let status = REFUSED;
        Failure::Said { status, line }
    }

    pub fn error(what: impl Display) -> Failure {
        Failure::Said {
            status: ERROR,
            line: format!("recomp: {what}"),
        }
    }

    /// The failure of something that was to be done with a file or folder, and what to do then.
    pub fn cannot(verb: &str, path: &Path, why: impl Display, advice: &str) -> Failure {
        let path = path.display();
        Failure::error(format!("cannot {verb} {path}: {why}; {advice}"))
    }
}
