//! The list of crates held against the sources: each crate lists exactly the libraries that its
//! files name, each of them above it in the list, on its own floor or one below.

use std::collections::{BTreeMap, BTreeSet};
use std::path::{Path, PathBuf};

/// The floors from the ground up: how the names of their crates begin, and what they hold.
pub const FLOORS: [(&str, &str); 12] = [
    ("base_", "Numbers, bytes, printers"),
    ("armv4t", "ARM"),
    ("file_", "The block file"),
    ("plan_", "Exits and plan"),
    ("c_", "C"),
    ("lower_", "Instructions to trees"),
    ("claim_", "What is claimed of the trees"),
    ("emit_", "Trees to bytes"),
    ("call_", "Public calls"),
    ("recomp", "The library"),
    ("case", "Stored vectors"),
    ("list_", "Programs"),
];

/// Libraries of the kit that a crate may list, which stand on no floor.
const KIT: [&str; 2] = ["bytes", "check"];

/// A line of the list: a crate and the libraries that it uses.
pub struct Listed {
    pub name: String,
    pub uses: Vec<String>,
}

/// The lines of a list of crates.
pub fn listed(text: &str) -> Vec<Listed> {
    let line = |line: &str| {
        let (name, uses) = line.split('#').next()?.split_once(':')?;
        let uses = uses.split_whitespace().map(str::to_string).collect();
        // `NAME staticlib` is a static library.
        let name = name.split_whitespace().next()?.to_string();
        Some(Listed { name, uses })
    };
    text.lines().filter_map(line).collect()
}

/// The libraries that each listed crate names in its code, definitions and proofs.
pub fn named(root: &Path, list: &[Listed]) -> std::io::Result<BTreeMap<String, BTreeSet<String>>> {
    let names: BTreeSet<&str> = list.iter().map(|l| l.name.as_str()).chain(KIT).collect();
    let mut out = BTreeMap::new();
    for Listed { name, .. } in list {
        let mut found = BTreeSet::new();
        for path in sources(&root.join("crates").join(name))? {
            let text = std::fs::read_to_string(&path)?;
            let code = path.extension().is_some_and(|e| e == "rt");
            found.extend(in_source(&text, code).filter(|n| names.contains(n.as_str())));
        }
        found.remove(name);
        out.insert(name.clone(), found);
    }
    Ok(out)
}

/// The files of Rattle and antt below a folder, without what `rt` makes in `out`.
fn sources(folder: &Path) -> std::io::Result<Vec<PathBuf>> {
    let mut out = Vec::new();
    for entry in std::fs::read_dir(folder)? {
        let path = entry?.path();
        if path.ends_with("out") {
            continue;
        }
        if path.is_dir() {
            out.extend(sources(&path)?);
        } else if path.extension().is_some_and(|e| e == "rt" || e == "antt") {
            out.push(path);
        }
    }
    Ok(out)
}

/// The words that a source names as crates: after `Rattle.` in definitions and proofs, and before
/// the first `::` of a path in code. Comments name none.
fn in_source(text: &str, code: bool) -> impl Iterator<Item = String> {
    let mark = if code { "//" } else { "--" };
    let mut out = Vec::new();
    for line in text
        .lines()
        .map(|line| line.split(mark).next().unwrap_or(""))
    {
        for after in line.split("Rattle.").skip(1) {
            out.push(after.chars().take_while(|c| is_name(*c)).collect());
        }
        if code {
            out.extend(paths(line));
        }
    }
    out.into_iter()
}

/// The first words of the paths in a line of code.
fn paths(line: &str) -> Vec<String> {
    let mut out = Vec::new();
    for (at, _) in line.match_indices("::") {
        let before: Vec<char> = line[..at]
            .chars()
            .rev()
            .take_while(|c| is_name(*c))
            .collect();
        let word: String = before.iter().rev().collect();
        if !line[..at - word.len()].ends_with("::") {
            out.push(word);
        }
    }
    out
}

fn is_name(c: char) -> bool {
    c.is_ascii_alphanumeric() || c == '_'
}

/// Which floor a crate stands on, from the ground up.
fn floor(name: &str) -> Option<usize> {
    FLOORS
        .iter()
        .position(|(prefix, _)| name.starts_with(prefix))
}

/// What is wrong with a list, a line each; nothing where it fits the sources.
pub fn faults(list: &[Listed], named: &BTreeMap<String, BTreeSet<String>>) -> Vec<String> {
    let mut out = Vec::new();
    let mut above = BTreeSet::from(KIT.map(str::to_string));
    let mut reached = 0;
    for Listed { name, uses } in list {
        let uses: BTreeSet<String> = uses.iter().cloned().collect();
        let needs = named.get(name).cloned().unwrap_or_default();
        for extra in uses.difference(&needs) {
            out.push(format!("{name} lists {extra} and does not use it"));
        }
        for missing in needs.difference(&uses) {
            out.push(format!("{name} uses {missing} and does not list it"));
        }
        for late in uses.difference(&above) {
            out.push(format!("{name} stands above {late}, which it uses"));
        }
        match floor(name) {
            None => out.push(format!("{name} stands on no floor")),
            Some(at) if at < reached => out.push(format!("{name} stands after a higher floor")),
            Some(at) => reached = at,
        }
        above.insert(name.clone());
    }
    out
}

/// What is wrong with the list of a repository.
pub fn faults_of(root: &Path) -> std::io::Result<Vec<String>> {
    let list = listed(&std::fs::read_to_string(root.join("crates.txt"))?);
    Ok(faults(&list, &named(root, &list)?))
}
