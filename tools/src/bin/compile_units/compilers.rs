//! The compilers, and the directory in which they work.

use recomp_tools::units::Unit;
use std::path::{Path, PathBuf};
use std::process::{Command, Output};

pub struct Compiler {
    pub name: &'static str,
    flags: &'static [&'static str],
    /// For a file without blocks, whose table has an empty initialiser, which C99 has not.
    flags_without_blocks: &'static [&'static str],
}

pub const COMPILERS: [Compiler; 3] = [
    Compiler {
        name: "gcc",
        flags: &["-std=c99", "-pedantic-errors"],
        flags_without_blocks: &["-std=gnu99"],
    },
    Compiler {
        name: "clang",
        flags: &["-std=c99", "-pedantic-errors"],
        flags_without_blocks: &["-std=gnu99"],
    },
    Compiler {
        name: "tcc",
        flags: &[],
        flags_without_blocks: &[],
    },
];

/// A directory for units and programs, which goes when this does.
pub struct Directory(PathBuf);

impl Directory {
    pub fn new() -> std::io::Result<Directory> {
        let name = format!("recomp-tools-compile-{}", std::process::id());
        let directory = std::env::temp_dir().join(name);
        std::fs::create_dir_all(&directory)?;
        Ok(Directory(directory))
    }

    /// Key and digest of every block, as `runtime/table.c` prints them.
    pub fn run(&self, compiler: &Compiler, units: &[Unit]) -> Result<Vec<(u32, u64)>, String> {
        let text = self.printed(compiler, "table.c", units)?;
        let row = |line: &str| row(line).ok_or_else(|| format!("printed {line:?}"));
        text.lines().map(row).collect()
    }

    /// Compiles the units and links them with a runtime: what the program prints.
    pub fn printed(
        &self,
        compiler: &Compiler,
        runtime: &str,
        units: &[Unit],
    ) -> Result<String, String> {
        let program = self.0.join(compiler.name);
        let blocks = units.last().map_or(0, |unit| unit.done);
        let mut command = Command::new(compiler.name);
        command.args(match blocks {
            0 => compiler.flags_without_blocks,
            _ => compiler.flags,
        });
        command.arg("-o").arg(&program);
        let folder = Path::new(env!("CARGO_MANIFEST_DIR")).join("runtime");
        command.arg(folder.join(runtime));
        for (k, unit) in units.iter().enumerate() {
            let path = self.0.join(format!("unit_{k}.c"));
            std::fs::write(&path, &unit.text).map_err(|error| error.to_string())?;
            command.arg(path);
        }
        finished(&mut command)?;
        let out = finished(&mut Command::new(&program))?;
        String::from_utf8(out.stdout).map_err(|error| error.to_string())
    }
}

fn row(line: &str) -> Option<(u32, u64)> {
    let (key, digest) = line.split_once(' ')?;
    let key = u32::from_str_radix(key, 16).ok()?;
    Some((key, u64::from_str_radix(digest, 16).ok()?))
}

/// What a command printed, if it ended well.
fn finished(command: &mut Command) -> Result<Output, String> {
    let out = command.output().map_err(|error| error.to_string())?;
    if out.status.success() {
        return Ok(out);
    }
    let said = String::from_utf8_lossy(&out.stderr);
    Err(format!("{}\n{said}", out.status))
}

impl Drop for Directory {
    fn drop(&mut self) {
        let _ = std::fs::remove_dir_all(&self.0);
    }
}
