//! The gate, `.ci/run`: what it says of the kept archive, what it links, and how it ends. Kit and
//! cargo are scripts here.

mod common;

use common::repository::{finish, Repository, DAMAGED, KEPT, KIT, LIBRARY, OTHER_SOURCES, TEXT};
use common::Run;
use std::fs;
use std::process::Command;

const COUNT: &str = "3 passed, 0 failed";

const RENEW: &str = "run lib/archive renew, and commit lib/";

fn gate(repository: &Repository) -> Command {
    repository.command(&repository.path(".ci/run"), &[])
}

/// Looks at the status of a run and at its last line.
#[track_caller]
fn assert_ends(run: &Run, status: i32, line: &str) {
    let last = run.out.lines().last().expect("a line");
    assert_eq!((run.status, last), (Some(status), line), "{}", run.err);
}

#[test]
fn the_tests_link_what_was_just_proved() {
    let repository = Repository::keeping();
    let [archive, text] = [KEPT, TEXT].map(|name| repository.has(name));
    let run = finish(&mut gate(&repository));
    assert_ends(&run, 0, COUNT);
    assert!(run
        .out
        .contains(&format!("\n{KEPT} is what was just proved\n")));
    let linked = format!("cargo links {LIBRARY}");
    assert_eq!(repository.calls()[1..], [&linked[..], &linked]);
    // Another library was proved: the tests link it, and the kept one stays and is told of.
    repository.put("archive", "another library");
    let line = format!("{KEPT} is not what was just proved; {RENEW}");
    assert_ends(&finish(&mut gate(&repository)), 1, &line);
    assert_eq!(repository.calls()[1..], ["cargo links another library"; 2]);
    assert_eq!(
        [KEPT, TEXT].map(|name| repository.has(name)),
        [archive, text]
    );
}

#[test]
fn a_kept_archive_of_other_sources_fails_the_gate() {
    let repository = Repository::keeping();
    repository.put("crates/base/src/lib.rt", "changed");
    let line = format!("{OTHER_SOURCES}; {RENEW}");
    assert_ends(&finish(&mut gate(&repository)), 1, &line);
    repository.renew();
    assert_ends(&finish(&mut gate(&repository)), 0, COUNT);
}

#[test]
fn another_kit_does_not_fail_the_gate() {
    let repository = Repository::keeping();
    repository.put("archive", "the library as another kit makes it");
    let run = finish(gate(&repository).env("KIT", "kit 2"));
    assert_ends(&run, 0, COUNT);
    assert!(run.out.contains(" and was not compared\n"), "{}", run.out);
}

#[test]
fn what_fails_is_told_last() {
    let repository = Repository::keeping();
    let run = finish(gate(&repository).env("WHILE_BUILDING", "exit 101"));
    assert_eq!(run.status, Some(1));
    let told = "the tests of tools/ failed\nthe tests of host/ failed\n";
    assert!(run.out.ends_with(told), "{}", run.out);
    let run = finish(gate(&repository).env("WHILE_PROVING", "exit 3"));
    assert_eq!(run.status, Some(3));
    let run = finish(gate(&repository).env("GATE", "1"));
    assert_eq!(run.status, Some(1));
}

#[test]
fn an_edit_that_can_no_longer_be_tried_fails_the_gate() {
    let repository = Repository::keeping();
    let line = "must-fail edits are bad: mend those that are named above";
    for bad in [", 1 bad", ", 2 of them only by a limit, 10 bad"] {
        assert_ends(&finish(gate(&repository).env("BAD", bad)), 1, line);
    }
    let run = finish(gate(&repository).env("BAD", ", 2 of them only by a limit"));
    assert_ends(&run, 0, COUNT);
}

/// What the gate says of the kept archive, held against what was just proved.
fn compared(repository: &Repository) -> Run {
    repository.archive(&["compare", &repository.0.join("archive")])
}

#[test]
fn the_gate_holds_the_kept_archive_against_what_it_proved() {
    let repository = Repository::keeping();
    let same = format!("{KEPT} is what was just proved\n");
    assert_eq!(compared(&repository).printed(), same);
    repository.put("archive", "the Library");
    let run = compared(&repository);
    assert_eq!(run.status, Some(1));
    let line = format!("{KEPT} is not what was just proved; {RENEW}\n");
    assert!(run.out.ends_with(&line), "{}", run.out);
    // A damaged one, one of other sources, and none, whatever was proved.
    repository.damage();
    let refused = |reason: &str| {
        let run = compared(&repository);
        assert_eq!((run.status, run.err.as_str()), (Some(1), ""));
        assert_eq!(run.out, format!("{reason}; {RENEW}\n"));
    };
    refused(DAMAGED);
    repository.put("crates/base/src/lib.rt", "changed");
    refused(OTHER_SOURCES);
    for name in [KEPT, TEXT] {
        repository.renew();
        assert_eq!(compared(&repository).printed(), same);
        fs::remove_file(repository.path(name)).expect("a file");
        refused(&format!("{KEPT} is missing, or its text is"));
    }
}

#[test]
fn the_gate_does_not_compare_what_another_kit_made() {
    let repository = Repository::keeping();
    repository.put("archive", "the library as another kit makes it");
    let with_kit = |kit: &str| {
        let archive = repository.0.join("archive");
        let mut command =
            repository.command(&repository.path("lib/archive"), &["compare", &archive]);
        finish(command.env("KIT", kit))
    };
    let line =
        format!("{KEPT} is of another kit ({KIT}; this one is kit 2), and was not compared\n");
    assert_eq!(with_kit("kit 2").printed(), line);
    assert_eq!(with_kit(KIT).status, Some(1));
    // Sums have to fit whichever kit there is.
    repository.damage();
    assert_eq!(with_kit("kit 2").status, Some(1));
}
