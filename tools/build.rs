//! Links the proved library to the programs that call it.

#[path = "../lib/link.rs"]
mod link;

/// The programs that call the library; all others build without it.
const CALLERS: [&str; 6] = [
    "bench",
    "bench-units",
    "check",
    "compare",
    "compare-units",
    "compile-units",
];

fn main() {
    println!("cargo::rerun-if-changed=build.rs");
    if std::env::var_os("CARGO_FEATURE_LIBRARY").is_none() {
        return;
    }
    let archive = link::archive();
    for bin in CALLERS {
        println!("cargo::rustc-link-arg-bin={bin}={}", archive.display());
    }
}
