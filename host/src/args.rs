//! The arguments of the program.

use crate::failure::Failure;
use crate::help;
use std::ffi::OsString;
use std::path::PathBuf;

/// The size of units unless one is given.
pub const UNIT_SIZE: u64 = 1 << 20;

/// Bytes of text that are lent at most unless a bound is given, a longer unit apart.
pub const MEMORY: u64 = 1 << 30;

#[derive(Clone, Debug, PartialEq, Eq)]
pub enum Command {
    /// Print this text.
    Say(String),
    Units {
        file: OsString,
        folder: PathBuf,
        size: u64,
        memory: u64,
    },
    Measure {
        file: OsString,
        unit: Option<u64>,
        size: u64,
    },
    Check {
        file: OsString,
    },
    Plan {
        file: OsString,
    },
    Page {
        file: OsString,
        page: Option<u64>,
    },
    Exits {
        file: OsString,
        block: Option<u64>,
    },
    Listing {
        file: OsString,
    },
    Reasons {
        file: OsString,
        instruction: Option<u64>,
    },
    Summary {
        file: OsString,
    },
    Verify {
        folder: PathBuf,
    },
}

/// The arguments after a command's name, options apart.
#[derive(Default)]
struct Words {
    help: bool,
    plain: Vec<OsString>,
    folder: Option<OsString>,
    size: Option<OsString>,
    memory: Option<OsString>,
    summary: bool,
}

pub fn parse(args: impl Iterator<Item = OsString>) -> Result<Command, Failure> {
    let mut args = args;
    let Some(command) = args.next() else {
        return Err(Failure::error("no command is given; run recomp --help"));
    };
    let command = command.to_string_lossy().into_owned();
    let (text, most) = match command.as_str() {
        "--help" | "-h" => return Ok(Command::Say(help::RECOMP.into())),
        "--version" => return Ok(Command::Say(version())),
        "units" => (help::UNITS, 1),
        "measure" => (help::MEASURE, 2),
        "check" => (help::CHECK, 1),
        "plan" => (help::PLAN, 1),
        "page" => (help::PAGE, 2),
        "exits" => (help::EXITS, 2),
        "listing" => (help::LISTING, 1),
        "reasons" => (help::REASONS, 2),
        "verify" => (help::VERIFY, 1),
        _ => {
            let what = format!("{command} is no command; run recomp --help");
            return Err(Failure::error(what));
        }
    };
    let words = words(&command, args)?;
    if words.help {
        return Ok(Command::Say(text.into()));
    }
    if let Some(more) = words.plain.get(most) {
        let what = format!("{} is one argument too many", more.to_string_lossy());
        return Err(wrong(&command, &what));
    }
    build(&command, words)
}

fn version() -> String {
    concat!("recomp ", env!("CARGO_PKG_VERSION"), "\n").into()
}

/// A usage error, with the way to the command's help.
fn wrong(command: &str, what: &str) -> Failure {
    Failure::error(format!("{command}: {what}; run recomp {command} --help"))
}

/// Sorts arguments into options and others. After `--` there are no options.
fn words(command: &str, mut args: impl Iterator<Item = OsString>) -> Result<Words, Failure> {
    let mut words = Words::default();
    while let Some(arg) = args.next() {
        let text = arg.to_string_lossy().into_owned();
        let mut value = |what: &str| {
            let none = || wrong(command, &format!("{text} needs {what} after it"));
            args.next().map(Some).ok_or_else(none)
        };
        match (text.as_str(), command) {
            ("--help" | "-h", _) => words.help = true,
            ("--", _) => words.plain.extend(args.by_ref()),
            ("-o", "units") => words.folder = value("a folder")?,
            ("--unit-size", "units" | "measure") => words.size = value("a size")?,
            ("--memory", "units") => words.memory = value("a size")?,
            ("--summary", "reasons") => words.summary = true,
            (option, "units" | "measure") if option.starts_with("--unit-size=") => {
                words.size = option.strip_prefix("--unit-size=").map(OsString::from)
            }
            (option, "units") if option.starts_with("--memory=") => {
                words.memory = option.strip_prefix("--memory=").map(OsString::from)
            }
            (option, _) if option.starts_with('-') && option != "-" => {
                return Err(wrong(command, &format!("there is no option {option}")));
            }
            _ => words.plain.push(arg),
        }
    }
    Ok(words)
}

fn build(command: &str, words: Words) -> Result<Command, Failure> {
    let mut plain = words.plain.into_iter();
    let nothing = match command {
        "verify" => "no folder is given",
        _ => "no block file is given",
    };
    let file = plain.next().ok_or_else(|| wrong(command, nothing))?;
    Ok(match command {
        "units" => Command::Units {
            file,
            folder: parse_folder(command, words.folder)?,
            size: parse_size(command, words.size, UNIT_SIZE)?,
            memory: parse_size(command, words.memory, MEMORY)?,
        },
        "measure" => Command::Measure {
            file,
            unit: parse_number(command, plain.next(), "unit number, as 0 is")?,
            size: parse_size(command, words.size, UNIT_SIZE)?,
        },
        "check" => Command::Check { file },
        "plan" => Command::Plan { file },
        "page" => Command::Page {
            file,
            page: parse_number(command, plain.next(), "page number, as 1 is")?,
        },
        "exits" => Command::Exits {
            file,
            block: parse_number(command, plain.next(), "block number, as 0 is")?,
        },
        "listing" => Command::Listing { file },
        "reasons" => parse_reasons(command, file, plain.next(), words.summary)?,
        _ => Command::Verify {
            folder: file.into(),
        },
    })
}

/// One sentence, all of them or their summary.
fn parse_reasons(
    command: &str,
    file: OsString,
    instruction: Option<OsString>,
    summary: bool,
) -> Result<Command, Failure> {
    let instruction = parse_number(command, instruction, "instruction number, as 0 is")?;
    match (summary, instruction) {
        (true, None) => Ok(Command::Summary { file }),
        (true, Some(_)) => {
            let what = "--summary is of all instructions; leave it out, or the number";
            Err(wrong(command, what))
        }
        (false, instruction) => Ok(Command::Reasons { file, instruction }),
    }
}

/// The number of what a command is to print alone, if one is given.
fn parse_number(command: &str, text: Option<OsString>, what: &str) -> Result<Option<u64>, Failure> {
    let Some(text) = text else {
        return Ok(None);
    };
    let text = text.to_string_lossy();
    let none = || wrong(command, &format!("{text} is no {what}"));
    digits(&text).map(Some).ok_or_else(none)
}

/// The folder that a command is to write to.
fn parse_folder(command: &str, folder: Option<OsString>) -> Result<PathBuf, Failure> {
    let folder = folder.filter(|folder| !folder.is_empty());
    let none = || wrong(command, "no folder is given; add -o DIR");
    folder.map(PathBuf::from).ok_or_else(none)
}

/// A size, or what it is unless given.
fn parse_size(command: &str, text: Option<OsString>, unless: u64) -> Result<u64, Failure> {
    let Some(text) = text else {
        return Ok(unless);
    };
    let text = text.to_string_lossy();
    let none = || {
        let what = format!("{text} is no size; give bytes, as 1048576, 1024K or 1M");
        wrong(command, &what)
    };
    size(&text).ok_or_else(none)
}

/// Bytes, with K for 1024 and M for 1024 times 1024.
fn size(text: &str) -> Option<u64> {
    let (number, unit) = match text.as_bytes().last()? {
        b'K' | b'k' => (&text[..text.len() - 1], 1 << 10),
        b'M' | b'm' => (&text[..text.len() - 1], 1 << 20),
        _ => (text, 1),
    };
    digits(number)?.checked_mul(unit)
}

/// A number of decimal digits alone: `parse` would take a sign too.
fn digits(text: &str) -> Option<u64> {
    let only = text.bytes().all(|byte| byte.is_ascii_digit());
    only.then(|| text.parse().ok())?
}

#[cfg(test)]
mod tests {
    use super::*;

    #[test]
    fn sizes() {
        assert_eq!(size("0"), Some(0));
        assert_eq!(size("300000"), Some(300_000));
        assert_eq!(size("64K"), Some(65_536));
        assert_eq!(size("2m"), Some(2_097_152));
        assert_eq!(size("18446744073709551615"), Some(u64::MAX));
        for wrong in [
            "",
            "K",
            "-1",
            "+1",
            "1G",
            "1 K",
            "18446744073709551616",
            "18014398509481984K",
        ] {
            assert_eq!(size(wrong), None, "{wrong}");
        }
    }
}
