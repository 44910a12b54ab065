//! Stores of several registers, compiled and run, store the words that the manual says; among them
//! the title's own store of request 2, which a sample holds.

mod common;

use common::{recomp, root, Run, Scratch};
use recomp_tools::stores;
use std::process::Command;

/// What the units of a block file do, linked with the runtime that prints stores.
fn printed(scratch: &Scratch, file: &str) -> String {
    let folder = scratch.join("units");
    assert!(recomp(&["units", file, "-o", &folder])
        .printed()
        .starts_with("units 1,"));
    let program = scratch.join("stores");
    let mut compiler = Command::new("cc");
    compiler.args(["-std=c99", "-pedantic-errors", "tools/runtime/stores.c"]);
    compiler.args([&format!("{folder}/unit_000.c"), "-o", &program]);
    let output = compiler.current_dir(root()).output();
    assert_eq!(Run::of(output.expect("a C compiler")).printed(), "");
    let output = Command::new(program).output();
    Run::of(output.expect("the program runs")).printed()
}

#[test]
fn the_old_base_is_stored_without_writeback() {
    let scratch = Scratch::new();
    let words = printed(&scratch, &common::sample("saved_base.blk"));
    assert_eq!(words, "08000000 02000110=02000100 02000114=02000110\n");
    assert_eq!(words, stores::title().1);
}

#[test]
fn every_store_is_the_manuals() {
    let scratch = Scratch::new();
    let (file, expected) = stores::file(&stores::all());
    let path = scratch.file("stores.blk", &file.bytes);
    assert_eq!(printed(&scratch, &path), expected);
}
