//! The list of crates: this repository's fits its sources, and each kind of fault is found.

use recomp_tools::floors::{faults, faults_of, listed, named, Listed};
use std::collections::{BTreeMap, BTreeSet};
use std::path::{Path, PathBuf};

fn root() -> PathBuf {
    Path::new(env!("CARGO_MANIFEST_DIR")).join("..")
}

#[test]
fn the_list_fits() {
    let faults = faults_of(&root()).expect("crates.txt and crates/");
    assert!(faults.is_empty(), "{}", faults.join("\n"));
}

/// The repository's list with one change makes the faults that `expected` says.
fn changed(change: impl Fn(&mut Vec<Listed>), expected: &[&str]) {
    let text = std::fs::read_to_string(root().join("crates.txt")).expect("crates.txt");
    let mut list = listed(&text);
    let named = named(&root(), &list).expect("crates/");
    change(&mut list);
    assert_eq!(faults(&list, &named), expected);
}

fn line<'a>(list: &'a mut [Listed], name: &str) -> &'a mut Listed {
    list.iter_mut().find(|l| l.name == name).expect("a crate")
}

#[test]
fn a_library_too_few_and_one_too_many() {
    changed(
        |list| line(list, "file_records").uses.retain(|u| u != "armv4t"),
        &["file_records uses armv4t and does not list it"],
    );
    changed(
        |list| line(list, "file_records").uses.push("base_text".into()),
        &["file_records lists base_text and does not use it"],
    );
}

#[test]
fn a_crate_above_what_it_uses() {
    changed(
        |list| {
            let at = |list: &[Listed], name: &str| list.iter().position(|l| l.name == name);
            let (a, b) = (at(list, "file_records"), at(list, "file_instrs"));
            list.swap(a.expect("listed"), b.expect("listed"));
        },
        &["file_instrs stands above file_records, which it uses"],
    );
}

#[test]
fn floors_in_their_order() {
    let list = listed("# A comment.\nfile_a:\nbase_b: bytes # of the kit\nother staticlib:\n");
    let uses = |name: &str, uses: &[&str]| {
        let uses: BTreeSet<String> = uses.iter().map(|u| u.to_string()).collect();
        (name.to_string(), uses)
    };
    let named = BTreeMap::from([uses("base_b", &["bytes"])]);
    let expected = [
        "base_b stands after a higher floor",
        "other stands on no floor",
    ];
    assert_eq!(faults(&list, &named), expected);
}
