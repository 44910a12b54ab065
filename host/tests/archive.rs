//! The archive that the repository keeps: when it is linked, when it is refused, and when the
//! library is proved in its place.

mod common;

use common::repository::{
    finish, Repository, CRATES, DAMAGED, KEPT, KIT, LIBRARY, OTHER_SOURCES, RT, TEXT,
};
use common::{names, Run};
use std::fs;
use std::os::unix::fs::symlink;
use std::path::Path;
use std::process::Command;

const VERSION: &str = "recomp 0.1.0\n";

/// What the launcher says when it links the kept archive.
const KEPT_IS_LINKED: &str =
    "recomp: building the program with the library that lib/ keeps\nwhat cargo prints\n";

const RESTORE: &str =
    "restore both (as by git checkout lib), or run ./recomp --prove, which needs rt";

/// A change of a file that makes another library.
type Change = (&'static str, fn(&Repository));

/// Each way to change what the library is made from.
const CHANGES: [Change; 8] = [
    ("a file is changed", |repository| {
        repository.put("crates/base/src/lib.rt", "changed")
    }),
    ("a file is added", |repository| {
        repository.put("crates/base/src/new.rt", "")
    }),
    ("a hidden file is added", |repository| {
        repository.put("crates/base/.new", "")
    }),
    ("a file is added to a module named out", |repository| {
        fs::create_dir(repository.path("crates/base/src/out")).expect("a folder");
        repository.put("crates/base/src/out/new.rt", "")
    }),
    ("a file is removed", |repository| {
        fs::remove_file(repository.path("crates/base/src/lib.rt")).expect("a file")
    }),
    ("a file gets another name", |repository| {
        let [from, to] = ["lib.rt", "bil.rt"].map(|name| format!("crates/base/src/{name}"));
        fs::rename(repository.path(&from), repository.path(&to)).expect("a file")
    }),
    ("a link is added that leads nowhere", |repository| {
        symlink("nowhere", repository.path("crates/base/src/new.rt")).expect("a link")
    }),
    ("the list of crates is changed", |repository| {
        repository.put("crates.txt", &format!("{CRATES}# A comment\n"))
    }),
];

#[test]
fn the_kept_archive_is_linked_without_a_kit() {
    let repository = Repository::keeping();
    repository.without("rt");
    // What rt would write now is another library.
    repository.put("archive", "another library");
    let run = repository.run(&["--version"]);
    assert_eq!(
        (run.out.as_str(), run.err.as_str()),
        (VERSION, KEPT_IS_LINKED)
    );
    assert_eq!(repository.calls(), [format!("cargo links {LIBRARY}")]);
    for tool in ["cargo", "cc", "flock", "sha256sum"] {
        repository.without(tool);
    }
    assert_eq!(repository.run(&["--version"]).printed(), VERSION);
}

#[test]
fn a_file_that_is_newer_and_equal_changes_nothing() {
    let repository = Repository::keeping();
    repository.run(&["--version"]);
    repository.without("rt");
    let built = fs::metadata(repository.path("host/target/librecomp.a"));
    let built = built.expect("the archive").modified().expect("a time");
    for name in ["crates/base/src/lib.rt", "crates.txt", KEPT, TEXT] {
        repository.calls();
        assert_eq!(repository.run(&["--version"]).printed(), VERSION);
        assert!(repository.calls().is_empty(), "{name}");
        let bytes = fs::read(repository.path(name)).expect("a file");
        fs::write(repository.path(name), bytes).expect("a file");
        assert_eq!(repository.run(&["--version"]).err, KEPT_IS_LINKED);
        assert_eq!(repository.calls(), [format!("cargo links {LIBRARY}")]);
        // Cargo goes by the archive's time, and so has nothing to do.
        let now = fs::metadata(repository.path("host/target/librecomp.a"));
        assert_eq!(now.expect("the archive").modified().expect("a time"), built);
    }
}

#[test]
fn changed_sources_are_never_linked_with_the_kept_archive() {
    for (what, change) in CHANGES {
        for built_before in [false, true] {
            let repository = Repository::keeping();
            if built_before {
                assert_eq!(repository.run(&["--version"]).err, KEPT_IS_LINKED);
                repository.calls();
            }
            change(&repository);
            repository.put("archive", "another library");
            let run = repository.run(&["--version"]);
            assert_eq!(run.out, VERSION);
            let first = format!("recomp: {OTHER_SOURCES}; proving the library, ");
            assert!(run.err.starts_with(&first), "{what}: {}", run.err);
            let calls = repository.calls();
            assert_eq!(calls[0], repository.both_calls()[0], "{what}");
            assert_eq!(calls[1..], ["cargo links another library"], "{what}");
        }
    }
}

#[test]
fn what_rt_keeps_is_no_source() {
    let repository = Repository::keeping();
    repository.without("rt");
    fs::create_dir(repository.path("crates/base/out")).expect("a folder");
    repository.put("crates/base/out/kept.rt", "");
    assert_eq!(repository.run(&["--version"]).err, KEPT_IS_LINKED);
    repository.put("crates/base/out/kept.rt", "more");
    assert_eq!(repository.run(&["--version"]).printed(), VERSION);
}

#[test]
fn a_kit_is_asked_for_where_sources_have_changed() {
    for (what, change) in CHANGES {
        let repository = Repository::keeping();
        repository.without("rt");
        change(&repository);
        let line = repository.run(&["--version"]).failed(2);
        let first = format!("recomp: {OTHER_SOURCES}; rt is not on the path; install ");
        assert!(line.starts_with(&first), "{what}: {line}");
        assert!(repository.calls().is_empty(), "{what}");
    }
}

#[test]
fn a_damaged_archive_is_refused_before_it_is_linked() {
    let text = |change: fn(String) -> String| {
        move |repository: &Repository| {
            let text = repository.has(TEXT);
            repository.put(TEXT, &change(text))
        }
    };
    let damages: [&dyn Fn(&Repository); 6] = [
        &Repository::damage,
        &|repository| repository.put(KEPT, ""),
        &|repository| repository.put(KEPT, "another library"),
        &text(|text| text.replace("librecomp.a\n", "librecomp.b\n")),
        &text(|text| text.replace(KIT, "")),
        &text(|text| format!("{text}{text}").replacen("# sources", "# other", 1)),
    ];
    for damage in damages {
        let repository = Repository::keeping();
        damage(&repository);
        let line = repository.run(&["--version"]).failed(2);
        assert_eq!(line, format!("recomp: {DAMAGED}; {RESTORE}"));
        assert!(repository.calls().is_empty());
        let left = names(repository.path("host/target").to_str().expect("UTF-8"));
        assert_eq!(left, ["lock"]);
        // The library can be proved in its place.
        assert_eq!(repository.run(&["--prove", "--version"]).out, VERSION);
        assert_eq!(repository.calls(), repository.both_calls());
    }
}

#[test]
fn a_text_of_other_sources_does_not_count() {
    let repository = Repository::keeping();
    for text in [
        repository.has(TEXT).replace("# sources: ", "# sources: 0"),
        repository.has(TEXT).replace("# sources: ", "# "),
        format!("{0}{0}", repository.has(TEXT)),
        String::new(),
    ] {
        repository.put(TEXT, &text);
        let _ = fs::remove_file(repository.path("host/target/recomp"));
        let run = repository.run(&["--version"]);
        let first = format!("recomp: {OTHER_SOURCES}; proving the library, ");
        assert!(run.err.starts_with(&first), "{text}: {}", run.err);
        assert_eq!(repository.calls(), repository.both_calls());
    }
}

#[test]
fn the_library_is_proved_where_that_is_asked_for() {
    let repository = Repository::keeping();
    repository.put("archive", "another library");
    let first = "recomp: proving the library, which takes minutes where it was not proved before\n";
    for built_before in [false, true] {
        let run = repository.run(&["--prove"]);
        assert_eq!(
            (run.status, run.out.as_str()),
            (Some(0), ""),
            "{built_before}"
        );
        assert!(run.err.starts_with(first), "{}", run.err);
        let last = "recomp: the program is built with the library just proved\n";
        assert!(run.err.ends_with(last), "{}", run.err);
        assert_eq!(repository.calls()[1..], ["cargo links another library"]);
        // What was built stays.
        assert_eq!(repository.run(&["--version"]).printed(), VERSION);
    }
    let run = repository.run(&["--prove", "check", "/dev/null"]);
    assert_eq!(run.status, Some(1));
    assert!(run.err.contains("\nrefused 1 at 0: "), "{}", run.err);
    assert_eq!(repository.calls().len(), 2);
}

#[test]
fn another_machine_proves_and_builds() {
    let repository = Repository::keeping();
    repository.script("uname", "#!/bin/sh\necho Linux aarch64\n");
    let run = repository.run(&["--version"]);
    let first = "recomp: no archive is kept for this machine; proving the library, ";
    assert!(run.err.starts_with(first), "{}", run.err);
    assert_eq!(repository.calls(), repository.both_calls());
}

#[test]
fn renewing_writes_archive_and_text() {
    let repository = Repository::keeping();
    let text = repository.has(TEXT);
    assert_eq!(text.lines().nth(1), Some("# kit: kit 1"));
    assert_eq!(text.lines().count(), 4);
    repository.put("crates/base/src/lib.rt", "changed");
    repository.put("archive", "another library");
    repository.renew();
    assert_eq!(repository.has(KEPT), "another library");
    assert_ne!(repository.has(TEXT), text);
    let sums = Command::new("sha256sum")
        .args(["-c", TEXT])
        .current_dir(repository.0.path())
        .output();
    assert_eq!(
        Run::of(sums.expect("it runs")).printed(),
        format!("{KEPT}: OK\n")
    );
    let folder = repository.0.join("lib/x86_64-linux");
    assert_eq!(names(&folder), ["librecomp.a", "librecomp.txt"]);
}

#[test]
fn nothing_is_renewed_where_nothing_was_proved() {
    let repository = Repository::keeping();
    let [archive, text] = [KEPT, TEXT].map(|name| repository.has(name));
    repository.put("archive", "another library");
    for (proving, reason) in [
        (
            "exit 1",
            "the library is not proved; mend what rt says above, then run again",
        ),
        (
            "echo changed >crates/base/src/lib.rt",
            "crates.txt or crates/ was changed while it was proved; run again",
        ),
    ] {
        let mut command = repository.command(&repository.path("lib/archive"), &["renew"]);
        let run = finish(command.env("WHILE_PROVING", proving));
        assert_eq!(run.status, Some(2));
        let last = format!("lib/archive: {reason}");
        assert_eq!(run.err.lines().last(), Some(last.as_str()));
        assert_eq!(
            [KEPT, TEXT].map(|name| repository.has(name)),
            [&archive[..], &text[..]]
        );
    }
}

/// With the real cargo and packages, as in a clean clone.
#[test]
fn the_first_command_calls_no_kit() {
    let repository = Repository::real();
    repository.renew();
    let folder = repository.0.join("units");
    let mut command = repository.launcher(&["units", "samples/count_down.blk", "-o", &folder]);
    repository.with_all(&mut command);
    let run = finish(command.current_dir(repository.0.path()));
    assert_eq!(run.out, "units 1, blocks 3, bytes 3752\n", "{}", run.err);
    assert!(repository.calls().is_empty());
}

/// A build of a package by hand, which nobody has told of a library.
fn built(repository: &Repository, package: &str) -> Run {
    let manifest = repository.0.join(&format!("{package}/Cargo.toml"));
    let check = ["check", "--quiet", "--locked", "--offline"];
    let mut command = repository.command(Path::new("cargo"), &check);
    command.args(["--manifest-path", &manifest]);
    if package == "tools" {
        command.args(["--features", "library"]);
    }
    repository.with_all(&mut command);
    finish(command.env_remove("RECOMP_LIBRARY"))
}

#[test]
fn builds_by_hand_link_the_kept_archive_where_it_fits() {
    let repository = Repository::real();
    for package in ["host", "tools"] {
        repository.renew();
        let run = built(&repository, package);
        assert_eq!(run.status, Some(0), "{}", run.err);
        assert!(repository.calls().is_empty());
        repository.damage();
        let run = built(&repository, package);
        assert_eq!(run.status, Some(101));
        assert!(
            run.err.contains(&format!("{DAMAGED}; {RESTORE}\n")),
            "{}",
            run.err
        );
        assert!(repository.calls().is_empty());
        let file = format!("crates/recomp/src/{package}_is_changed");
        repository.put(&file, "");
        let run = built(&repository, package);
        assert_eq!(run.status, Some(0), "{}", run.err);
        assert_eq!(repository.calls(), repository.both_calls()[..1]);
        // A kit that fails is shown, after what it was called for.
        repository.put(&file, "again");
        repository.script("rt", "#!/bin/sh\necho what rt says\nexit 1\n");
        let run = built(&repository, package);
        let reason =
            format!("{OTHER_SOURCES}; rt lib in crates/recomp ended with exit status: 1\n");
        assert!(run.err.contains(&reason), "{}", run.err);
        assert!(run.err.contains("what rt says\n"), "{}", run.err);
        repository.script("rt", RT);
    }
}
