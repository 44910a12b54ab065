//! Links the proved library.

#[path = "../lib/link.rs"]
mod link;

fn main() {
    println!("cargo::rerun-if-changed=build.rs");
    let archive = link::archive();
    println!("cargo::rustc-link-arg={}", archive.display());
    // The tests compile a C program against the same library.
    println!("cargo::rustc-env={}={}", link::OVERRIDE, archive.display());
}
