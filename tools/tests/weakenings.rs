//! Weakenings: lists are read, changes are made where a text is there once, what `rt` prints is
//! understood, and each weakening of this repository fits its sources.

use recomp_tools::floors::listed;
use recomp_tools::weakenings::{apply, changed, edited, faults, parse, read_lists, refused_below};
use recomp_tools::weakenings::{table, tally, with_used, write};
use recomp_tools::weakenings::{Change, Edit, Fault, Outcome, Weakening};
use std::path::{Path, PathBuf};

const LIST: &str = "\
# What is weakened here.
file: crates/a/specs/A.antt
prove: a b

weakening: first
says: less
old: one
   |  two
new: three

weakening: second
says: nothing
prove: c
by: law
survives: for a reason
file: crates/a/proofs/B.antt
drop: law (first
old: x
new:
";

fn replaced(file: &str, old: &str, new: &str) -> Edit {
    let (old, new) = (old.to_string(), new.to_string());
    let file = file.to_string();
    let change = Change::Replace { old, new };
    Edit { file, change }
}

fn weakening(edits: Vec<Edit>) -> Weakening {
    Weakening {
        name: "list/name".into(),
        says: "less".into(),
        prove: vec!["a".into()],
        survives: None,
        by: None,
        edits,
    }
}

#[test]
fn a_list_is_read() {
    let read = parse("list", LIST).expect("a list");
    assert_eq!(read.len(), 2);
    assert_eq!(read[0].name, "list/first");
    assert_eq!(read[0].prove, ["a", "b"]);
    let edit = replaced("crates/a/specs/A.antt", "one\n  two", "three");
    assert_eq!(read[0].edits, [edit]);
    assert_eq!(read[1].prove, ["c"]);
    assert_eq!(read[1].by.as_deref(), Some("law"));
    assert_eq!(read[1].survives.as_deref(), Some("for a reason"));
    let file = "crates/a/proofs/B.antt".to_string();
    let change = Change::Drop("law (first".into());
    let edits = [
        Edit { file, change },
        replaced("crates/a/proofs/B.antt", "x", ""),
    ];
    assert_eq!(read[1].edits, edits);
}

#[test]
fn a_list_with_a_fault() {
    let fault = |text: &str| parse("list", text).expect_err("a fault");
    assert!(fault("old: x\n").contains("before the first weakening"));
    assert!(fault("   | x\n").contains("nothing goes on"));
    assert!(fault("a word\n").contains("no field"));
    assert!(fault("weakening: a\nodd: x\n").contains("unknown field `odd`"));
    assert!(fault("weakening: a\nold: x\nold: y\n").contains("without its `new`"));
    assert!(fault("weakening: a\n").contains("lacks `says`"));
    assert!(fault("weakening: a\nsays: b\nprove: c\n").contains("lacks an edit"));
    assert!(fault("weakening: a\nsays: b\nprove: c\ndrop: d\n").contains("lacks `file`"));
    assert!(fault(&format!("{LIST}weakening: first\n")).contains("twice"));
}

#[test]
fn a_text_is_there_once() {
    let change = replaced("f", "b c", "d").change;
    assert_eq!(changed("a b c\n", &change).expect("changed"), "a d\n");
    let missing = changed("a b\n", &change).expect_err("missing");
    assert_eq!(missing, "`b c` is not there");
    let twice = changed("b c b c\n", &change).expect_err("twice");
    assert_eq!(twice, "`b c` is there 2 times");
    assert!(changed("a", &replaced("f", "", "d").change).is_err());
}

#[test]
fn a_clause_is_dropped_whole() {
    let text = "f : A\nf (one x) =\n    g x\n  where\n    g : A\n\n    g = x\n\nf two = y\n";
    let dropped = changed(text, &Change::Drop("(one x)".into())).expect("changed");
    assert_eq!(dropped, "f : A\n\nf two = y\n");
    let last = changed("a\n  b", &Change::Drop("a".into())).expect("changed");
    assert_eq!(last, "");
}

/// A folder with a file in it, removed at the end.
struct Folder(PathBuf);

impl Folder {
    fn new(file: &str, text: &str) -> Folder {
        let name = format!("recomp-tools-weakenings-{}", std::process::id());
        let folder = Folder(std::env::temp_dir().join(name));
        std::fs::create_dir_all(&folder.0).expect("made");
        std::fs::write(folder.0.join(file), text).expect("written");
        folder
    }
}

impl Drop for Folder {
    fn drop(&mut self) {
        std::fs::remove_dir_all(&self.0).ok();
    }
}

#[test]
fn a_weakening_is_applied_and_taken_back() {
    let folder = Folder::new("A.antt", "one two\n");
    let now = || std::fs::read_to_string(folder.0.join("A.antt")).expect("read");
    let both = vec![
        replaced("A.antt", "one", "1"),
        replaced("A.antt", "1 t", "t"),
    ];
    let before = apply(&folder.0, &weakening(both)).expect("applied");
    assert_eq!(now(), "two\n");
    write(&folder.0, &before).expect("written");
    assert_eq!(now(), "one two\n");
    let half = vec![
        replaced("A.antt", "one", "1"),
        replaced("A.antt", "one", "2"),
    ];
    let error = apply(&folder.0, &weakening(half)).expect_err("the second text is gone");
    assert_eq!(error, "list/name: A.antt: `one` is not there");
    assert_eq!(now(), "one two\n");
}

const PRINTED: &str = "\
note: no function with a body is declared, so nothing was lowered
./proofs/A.antt:12:41: error: module `A` has no `one` that can be named from here
./proofs/B.antt:9:3: error: `law`: expected type `1 ≡ 2`, but this has type `1 ≡ 1`
  further on
./proofs/B.antt:12:3: error: 1 declaration that depends on `law`, which was rejected, was not checked: next
./proofs/B.antt:19:3: error: 1 declaration that depends on `a`, which was not admitted, was not checked: last
logic=not-proved
";

const SAID: &str = "\
rt: chose --jobs 1 for b
rt: the library b did not build, so nothing above it was checked
";

fn refused() -> Outcome {
    let by = refused_below(SAID).expect("a crate").to_string();
    let faults = faults(PRINTED, &by);
    Outcome::Refused { by, faults }
}

#[test]
fn what_is_printed_is_read() {
    let Outcome::Refused { by, faults } = refused() else {
        panic!("refused");
    };
    assert_eq!(by, "b");
    let of: Vec<&str> = faults.iter().map(|f| f.of.as_str()).collect();
    assert_eq!(of, ["law", ""]);
    assert_eq!(faults[0].file, "crates/b/proofs/B.antt");
    assert_eq!(faults[0].line, "9");
    assert!(!faults[0].is_of_a_name());
    assert!(faults[1].is_of_a_name());
    assert_eq!(refused_below("rt: chose --jobs 1 for b\n"), None);
}

#[test]
fn outcomes_are_judged() {
    let plain = weakening(Vec::new());
    assert!(refused().is_expected(&plain));
    assert!(!Outcome::Survived.is_expected(&plain));
    assert_eq!(refused().shown(&plain), "`law`, `b/proofs/B.antt`");
    let mut told = weakening(Vec::new());
    told.by = Some("other".into());
    assert!(!refused().is_expected(&told));
    let mut kept = weakening(Vec::new());
    kept.survives = Some("for a reason".into());
    assert!(Outcome::Survived.is_expected(&kept));
    assert!(!refused().is_expected(&kept));
    let message = "no clause covers the case `f one`".to_string();
    let (file, line, of) = ("f".to_string(), "1".to_string(), "f".to_string());
    let named = Outcome::Refused {
        by: "a".into(),
        faults: vec![Fault {
            file,
            line,
            of,
            message,
        }],
    };
    assert!(named.is_of_a_name() && !named.is_expected(&plain));
    let trials = [
        (&plain, refused()),
        (&kept, Outcome::Survived),
        (&plain, named),
    ];
    let expected = "2 refused, 1 survived; 1 of the refused for a name alone";
    assert_eq!(tally(&trials), expected);
    assert!(table(&trials).contains("| `list/name` | less | survives: for a reason |\n"));
}

#[test]
fn what_a_crate_uses() {
    let list = listed("a:\nb: a io\nc: b\nd: a\n");
    let used: Vec<String> = with_used(&list, &["c"]).into_iter().collect();
    assert_eq!(used, ["a", "b", "c"]);
}

#[test]
fn this_repository() {
    let root = Path::new(env!("CARGO_MANIFEST_DIR")).join("..");
    let text = std::fs::read_to_string(root.join("crates.txt")).expect("crates.txt");
    let crates = listed(&text);
    for weakening in read_lists(&root.join("tools/weakenings")).expect("lists") {
        edited(&root, &weakening).expect("each text is there once");
        for name in &weakening.prove {
            let known = crates.iter().any(|l| l.name == *name);
            assert!(known, "{}: no crate {name}", weakening.name);
        }
    }
}
