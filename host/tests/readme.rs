//! The README's example is what the program prints.

mod common;

use common::repository::{finish, Repository, DAMAGED};
use common::{recomp, root, Scratch};
use std::fs;
use std::path::Path;

const SAMPLE: &str = "samples/count_down.blk";

/// A text as the README shows it, empty lines left empty.
fn shown(text: &str) -> String {
    let line = |line: &str| match line {
        "" => "\n".into(),
        line => format!("    {line}\n"),
    };
    text.lines().map(line).collect()
}

/// Looks for commands with what they print.
#[track_caller]
fn assert_shown(text: &str) {
    let readme = fs::read_to_string(root().join("README.md")).expect("the README");
    assert!(readme.contains(&shown(text)), "README without\n{text}");
}

#[test]
fn the_example_of_the_readme() {
    let sample = common::sample("count_down.blk");
    for command in ["listing", "plan"] {
        let printed = recomp(&[command, &sample]).printed();
        assert_shown(&format!("$ recomp {command} {SAMPLE}\n{printed}"));
    }
    let page = recomp(&["page", &sample]).printed().replace('\n', "|\n");
    assert_shown(&format!("$ recomp page {SAMPLE} | sed 's/$/|/'\n{page}"));
    let all = recomp(&["measure", &sample]).printed();
    let one = recomp(&["measure", &sample, "0"]).printed();
    assert_shown(&format!(
        "$ recomp measure {SAMPLE}\n{all}$ recomp measure {SAMPLE} 0\n{one}"
    ));
    let scratch = Scratch::new();
    let folder = scratch.join("out");
    let totals = recomp(&["units", &sample, "-o", &folder]).printed();
    let unit = fs::read_to_string(format!("{folder}/unit_000.c")).expect("a unit");
    let own: Vec<_> = unit.lines().skip(53).collect();
    let own = own.join("\n");
    assert_shown(&format!(
        "$ recomp units {SAMPLE} -o out\n{totals}$ tail -n +54 out/unit_000.c\n{own}"
    ));
}

#[test]
fn the_reasons_of_the_readme() {
    let sample = common::sample("generated.blk");
    let summary = recomp(&["reasons", &sample, "--summary"]).printed();
    let all = recomp(&["reasons", &sample]).printed();
    let command = "$ recomp reasons samples/generated.blk";
    assert_shown(&format!("{command} --summary\n{summary}{command}\n{all}"));
}

#[test]
fn the_refusal_of_the_readme() {
    let bytes = fs::read(common::sample("count_down.blk")).expect("the sample");
    let line = common::recomp_on(&bytes[..100], &["check", "-"]).failed(1);
    assert_shown(&format!("$ head -c 100 {SAMPLE} | recomp check -\n{line}"));
}

/// The line that starts so, of those that the README sets apart as commands.
fn command(start: &str) -> String {
    let readme = fs::read_to_string(root().join("README.md")).expect("the README");
    let commands = readme.lines().filter_map(|line| line.strip_prefix("    "));
    let mut found = commands.filter(|line| line.starts_with(start));
    let line = found.next().expect("the command");
    assert_eq!(found.next(), None, "one line starts so");
    line.into()
}

/// With the kept archive made from the library that is tested here: nothing is written beside it.
#[test]
fn the_line_of_the_readme_for_a_folder_that_cannot_be_written() {
    let repository = Repository::real();
    repository.renew();
    fs::remove_dir_all(repository.path("host/target")).expect("the folder goes");
    let folder = repository.0.join("elsewhere");
    let line = command("cargo build");
    let line = line
        .replace("REPOSITORY", &repository.0.join(""))
        .replace("DIR", &folder);
    let mut shell = repository.command(Path::new("sh"), &["-c", &line]);
    repository.with_all(&mut shell);
    let run = finish(shell.env_remove("RECOMP_LIBRARY"));
    assert_eq!(run.status, Some(0), "{}", run.err);
    assert!(repository.calls().is_empty());
    assert!(!repository.path("host/target").exists());
    let mut program =
        repository.command(&repository.path("elsewhere/release/recomp"), &["--version"]);
    assert_eq!(finish(&mut program).printed(), "recomp 0.1.0\n");
}

/// With the kept archive made from the library that is tested here.
#[test]
fn the_line_of_the_readme_without_cargo() {
    let repository = Repository::real();
    for part in ["include", "examples", "samples/count_down.blk"] {
        repository.take(part);
    }
    repository.renew();
    repository.without("rt");
    let line = command("lib/archive take");
    let run = || {
        let mut shell = repository.command(Path::new("sh"), &["-c", &line]);
        repository.with_all(&mut shell);
        finish(shell.current_dir(repository.0.path()))
    };
    let folder = repository.0.join("out");
    let args = ["units", &common::sample("count_down.blk"), "-o", &folder];
    assert_eq!(run().printed(), recomp(&args).printed());
    let [from_c, from_program] = ["unit_000.c", "out/unit_000.c"].map(|unit| repository.has(unit));
    assert_eq!(from_c, from_program);
    // Nothing is compiled with an archive that is not as it was made.
    for name in ["units", "unit_000.c", "librecomp.a"] {
        fs::remove_file(repository.path(name)).expect("what was made");
    }
    repository.damage();
    let refused = run();
    assert!(refused.failed(2).starts_with(DAMAGED));
    assert!(!repository.path("units").exists() && !repository.path("librecomp.a").exists());
}
