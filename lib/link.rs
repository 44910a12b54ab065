//! For the build scripts of host/ and tools/: which archive of the proved library is linked.

use std::path::{Path, PathBuf};
use std::process::Command;

/// Names a static library to link in place of the repository's own.
pub const OVERRIDE: &str = "RECOMP_LIBRARY";

/// The archive to link: a copy, which stays as it was tested when the repository's own is written
/// anew. Where there is none the build ends.
pub fn archive() -> PathBuf {
    println!("cargo::rerun-if-env-changed={OVERRIDE}");
    let out = std::env::var("OUT_DIR").expect("set by cargo");
    let copy = Path::new(&out).join("librecomp.a");
    let got = match std::env::var_os(OVERRIDE) {
        Some(path) => {
            println!("cargo::rerun-if-changed={}", Path::new(&path).display());
            take_copy(Path::new(&path), &copy)
        }
        None => kept_or_proved(&copy),
    };
    if let Err(reason) = got {
        eprintln!("the proved library, which is linked, could not be had: {reason}");
        // Cargo then shows all that went to standard error, what rt said included.
        std::process::exit(1);
    }
    copy
}

fn take_copy(path: &Path, copy: &Path) -> Result<(), String> {
    let copied = std::fs::copy(path, copy);
    copied.map_err(|error| format!("{}: {error}", path.display()))?;
    Ok(())
}

/// The archive that the repository keeps, where it was made from the sources as they are; else what
/// `rt` proves and writes.
fn kept_or_proved(copy: &Path) -> Result<(), String> {
    let package = std::env::var("CARGO_MANIFEST_DIR").expect("set by cargo");
    let root = Path::new(&package).parent().expect("the repository");
    for part in ["crates.txt", "lib"] {
        println!("cargo::rerun-if-changed={}", root.join(part).display());
    }
    for part in sources(&root.join("crates")) {
        println!("cargo::rerun-if-changed={}", part.display());
    }
    let mut take = Command::new("sh");
    take.arg(root.join("lib/archive")).arg("take").arg(copy);
    let taken = take.output();
    let taken = taken.map_err(|error| format!("sh lib/archive did not start ({error})"))?;
    let why = String::from_utf8_lossy(&taken.stderr);
    let why = why.trim_end();
    match taken.status.code() {
        Some(0) => Ok(()),
        Some(1) => prove(root, copy).map_err(|reason| format!("{why}; {reason}")),
        _ => Err(why.into()),
    }
}

/// What stands in the crates' folders, but for `out`, where `rt` keeps what it has proved: cargo
/// would look at all of that, and build again after each check.
fn sources(crates: &Path) -> Vec<PathBuf> {
    let inside = |folder: &Path| {
        let entries = std::fs::read_dir(folder).into_iter().flatten().flatten();
        entries.map(|entry| entry.path()).collect::<Vec<_>>()
    };
    let (folders, mut out): (Vec<_>, Vec<_>) = inside(crates).into_iter().partition(|p| p.is_dir());
    for folder in folders {
        out.extend(inside(&folder).into_iter().filter(|p| !p.ends_with("out")));
    }
    out
}

fn prove(root: &Path, copy: &Path) -> Result<(), String> {
    let library = root.join("crates/recomp");
    // Under -vv cargo shows at once what goes to standard error.
    let status = Command::new("rt")
        .arg("lib")
        .current_dir(&library)
        .stdout(std::io::stderr())
        .status()
        .map_err(|error| format!("rt did not start ({error}): put the Rattle kit on the path"))?;
    if !status.success() {
        return Err(format!("rt lib in crates/recomp ended with {status}"));
    }
    take_copy(&library.join("out/librecomp.a"), copy)
}
