//! The example in C, compiled against header and library, writes what the program writes, all units
//! or one.

mod common;

use common::{contents, lone_blocks, names, recomp, root, sample, Run, Scratch};
use recomp_tools::samples;
use std::process::Command;

/// The example, compiled, with a folder of its own.
struct Example(Scratch);

impl Example {
    fn compiled() -> Example {
        let example = Example(Scratch::new());
        let mut compiler = Command::new("cc");
        compiler.args([
            "-std=c99",
            "-pedantic",
            "-Wall",
            "-Wextra",
            "-Werror",
            "-Iinclude",
        ]);
        compiler.args(["examples/units.c", env!("RECOMP_LIBRARY"), "-o"]);
        compiler.arg(example.0.join("units")).current_dir(root());
        let output = compiler.output();
        assert_eq!(Run::of(output.expect("a C compiler")).printed(), "");
        example
    }

    fn run(&self, args: &[&str]) -> Run {
        let output = Command::new(self.0.join("units")).args(args).output();
        Run::of(output.expect("the example runs"))
    }

    /// A new folder.
    fn folder(&self, name: &str) -> String {
        let folder = self.0.join(name);
        std::fs::create_dir(&folder).expect("a folder");
        folder
    }
}

#[test]
fn the_example_writes_the_units_of_the_program() {
    let example = Example::compiled();
    let path = example.0.file("hundred.blk", &lone_blocks(100).bytes);
    let from_c = example.folder("from_c");
    let from_program = example.0.join("from_program");
    let printed = example.run(&[&path, &from_c, "5000"]).printed();
    let args = ["units", &path, "-o", &from_program, "--unit-size", "5000"];
    assert_eq!(recomp(&args).printed(), printed);
    std::fs::remove_file(format!("{from_program}/units.txt")).expect("the manifest");
    assert!(names(&from_c).len() > 1, "{printed}");
    assert!(contents(&from_c) == contents(&from_program));
}

/// Each unit measured, then written, against all units by one call; and the unit after the last.
#[test]
fn the_example_writes_each_unit_alone_as_all_together() {
    let example = Example::compiled();
    for (name, _) in samples::all() {
        let path = sample(name);
        for size in ["0", "1048576"] {
            let folder = |form| example.folder(&format!("{name} {size} {form}"));
            let [all, each] = ["all", "each"].map(folder);
            example.run(&[&path, &all, size]).printed();
            let count = names(&all).len();
            for unit in 0..count {
                let unit = unit.to_string();
                let printed = example.run(&[&path, &each, size, &unit]).printed();
                let values: Vec<_> = printed.trim_end().split(", ").map(value).collect();
                let measured = recomp(&["measure", &path, &unit, "--unit-size", size]);
                let line = format!("unit length done last\n{}\n", values.join(" "));
                assert_eq!(measured.printed(), line);
            }
            let after = example.run(&[&path, &each, size, &count.to_string()]);
            assert_eq!(after.failed(1), "refused 9 at 0");
            assert!(contents(&each) == contents(&all), "{path} {size}");
        }
    }
}

/// The value in a name and its value.
fn value(named: &str) -> &str {
    named.split_once(' ').expect("a name and its value").1
}

#[test]
fn the_example_refuses_as_the_library_does() {
    let example = Example::compiled();
    let path = example.0.file("empty.blk", b"");
    let folder = example.folder("none");
    for unit in [&[][..], &["0"]] {
        let run = example.run(&[&[&path, &folder, "0"], unit].concat());
        assert_eq!(run.failed(1), "refused 1 at 0");
    }
    assert!(names(&folder).is_empty());
}

#[test]
fn wrong_uses_of_the_example() {
    let example = Example::compiled();
    for args in [&["a", "b"][..], &["a", "b", "0", "0", "0"]] {
        let line = example.run(args).failed(2);
        assert_eq!(line, "usage: units FILE DIR BYTES [UNIT]");
    }
}
