//! Arguments: help, version, and every wrong use with its line.

mod common;

use common::{recomp, sample};

const COMMANDS: [&str; 9] = [
    "units FILE",
    "measure FILE",
    "check FILE",
    "plan FILE",
    "page FILE",
    "exits FILE",
    "listing FILE",
    "reasons FILE",
    "verify DIR",
];

#[test]
fn version() {
    assert_eq!(recomp(&["--version"]).printed(), "recomp 0.1.0\n");
}

#[test]
fn help_of_the_program_names_every_command() {
    let text = recomp(&["--help"]).printed();
    assert_eq!(recomp(&["-h"]).printed(), text);
    for command in COMMANDS {
        assert!(text.contains(&format!("recomp {command}")), "{text}");
    }
}

#[test]
fn help_of_each_command() {
    for command in COMMANDS {
        let usage = format!("usage: recomp {command}");
        let command = command.split(' ').next().expect("a name");
        let text = recomp(&[command, "--help"]).printed();
        assert!(text.contains(&usage), "{text}");
        // Help is given whatever else stands there.
        assert_eq!(recomp(&[command, "a", "b", "c", "-h"]).printed(), text);
    }
}

#[test]
fn wrong_uses() {
    let file = &sample("three_blocks.blk");
    let cases: [(&[&str], &str); 43] = [
        (&[], "no command is given; run recomp --help"),
        (&["unit", file], "unit is no command; run recomp --help"),
        (
            &["check"],
            "check: no block file is given; run recomp check --help",
        ),
        (
            &["units", file],
            "units: no folder is given; add -o DIR; run recomp units --help",
        ),
        (
            &["units", file, "-o"],
            "units: -o needs a folder after it; run recomp units --help",
        ),
        (
            &["units", file, "-o", ""],
            "units: no folder is given; add -o DIR; run recomp units --help",
        ),
        (
            &["units", file, "-o", "x", "--unit-size"],
            "units: --unit-size needs a size after it; run recomp units --help",
        ),
        (
            &["units", file, "-o", "x", "--unit-size", "1G"],
            "units: 1G is no size; give bytes, as 1048576, 1024K or 1M; run recomp units --help",
        ),
        (
            &["units", file, "-o", "x", "--unit-size=-1"],
            "units: -1 is no size; give bytes, as 1048576, 1024K or 1M; run recomp units --help",
        ),
        (
            &["units", file, "-o", "x", "--memory"],
            "units: --memory needs a size after it; run recomp units --help",
        ),
        (
            &["units", file, "-o", "x", "--memory=1G"],
            "units: 1G is no size; give bytes, as 1048576, 1024K or 1M; run recomp units --help",
        ),
        (
            &["measure"],
            "measure: no block file is given; run recomp measure --help",
        ),
        (
            &["measure", file, "one"],
            "measure: one is no unit number, as 0 is; run recomp measure --help",
        ),
        (
            &["measure", file, "+0"],
            "measure: +0 is no unit number, as 0 is; run recomp measure --help",
        ),
        (
            &["measure", file, "0", "1"],
            "measure: 1 is one argument too many; run recomp measure --help",
        ),
        (
            &["measure", file, "-1"],
            "measure: there is no option -1; run recomp measure --help",
        ),
        (
            &["measure", file, "--unit-size"],
            "measure: --unit-size needs a size after it; run recomp measure --help",
        ),
        (
            &["measure", file, "--unit-size=1G"],
            "measure: 1G is no size; give bytes, as 1048576, 1024K or 1M; run recomp measure --help",
        ),
        (
            &["measure", file, "--memory", "1M"],
            "measure: there is no option --memory; run recomp measure --help",
        ),
        (
            &["measure", file, "-o", "x"],
            "measure: there is no option -o; run recomp measure --help",
        ),
        (
            &["check", "--memory", "1M", file],
            "check: there is no option --memory; run recomp check --help",
        ),
        (
            &["check", "-o", "x", file],
            "check: there is no option -o; run recomp check --help",
        ),
        (
            &["plan", file, "--all"],
            "plan: there is no option --all; run recomp plan --help",
        ),
        (
            &["page", file, "one"],
            "page: one is no page number, as 1 is; run recomp page --help",
        ),
        (
            &["page", file, ""],
            "page:  is no page number, as 1 is; run recomp page --help",
        ),
        (
            &["page", file, "+1"],
            "page: +1 is no page number, as 1 is; run recomp page --help",
        ),
        (
            &["page", file, "18446744073709551616"],
            "page: 18446744073709551616 is no page number, as 1 is; run recomp page --help",
        ),
        (
            &["page", file, "1", "2"],
            "page: 2 is one argument too many; run recomp page --help",
        ),
        (
            &["listing", file, "b"],
            "listing: b is one argument too many; run recomp listing --help",
        ),
        (
            &["exits", file, "one"],
            "exits: one is no block number, as 0 is; run recomp exits --help",
        ),
        (
            &["exits", file, "0", "1"],
            "exits: 1 is one argument too many; run recomp exits --help",
        ),
        (
            &["reasons"],
            "reasons: no block file is given; run recomp reasons --help",
        ),
        (
            &["reasons", "--summary"],
            "reasons: no block file is given; run recomp reasons --help",
        ),
        (
            &["reasons", file, "one"],
            "reasons: one is no instruction number, as 0 is; run recomp reasons --help",
        ),
        (
            &["reasons", file, "0x10"],
            "reasons: 0x10 is no instruction number, as 0 is; run recomp reasons --help",
        ),
        (
            &["reasons", file, "0", "1"],
            "reasons: 1 is one argument too many; run recomp reasons --help",
        ),
        (
            &["reasons", file, "-1"],
            "reasons: there is no option -1; run recomp reasons --help",
        ),
        (
            &["reasons", file, "--summary=1"],
            "reasons: there is no option --summary=1; run recomp reasons --help",
        ),
        (
            &["reasons", "--summary", file, "0"],
            "reasons: --summary is of all instructions; leave it out, or the number; \
             run recomp reasons --help",
        ),
        (
            &["check", file, "--summary"],
            "check: there is no option --summary; run recomp check --help",
        ),
        (
            &["verify"],
            "verify: no folder is given; run recomp verify --help",
        ),
        (
            &["verify", "a", "b"],
            "verify: b is one argument too many; run recomp verify --help",
        ),
        (
            &["verify", "-o", "a"],
            "verify: there is no option -o; run recomp verify --help",
        ),
    ];
    for (args, line) in cases {
        assert_eq!(recomp(args).failed(2), format!("recomp: {line}"));
    }
}

#[test]
fn after_two_dashes_a_name_may_begin_with_one() {
    let line = recomp(&["check", "--", "-x"]).failed(2);
    assert!(line.starts_with("recomp: cannot read -x: "), "{line}");
}
