//! Weakens definitions in a copy of the sources, one at a time, and says what refuses each.

use recomp_tools::floors::{listed, Listed};
use recomp_tools::weakenings::{apply, edited, faults, read_lists, refused_below, table, tally};
use recomp_tools::weakenings::{with_used, write, Outcome, Weakening};
use std::collections::BTreeSet;
use std::path::{Path, PathBuf};
use std::process::{Command, ExitCode, Output};
use std::time::Instant;

const USAGE: &str = "weakenings [--list] [--limit SECONDS] [NAME]...
NAME: a list of tools/weakenings, or one weakening of it, as ways/label; all without one";

fn main() -> ExitCode {
    match run() {
        Ok(true) => ExitCode::SUCCESS,
        Ok(false) => ExitCode::FAILURE,
        Err(error) => {
            eprintln!("weakenings: {error}");
            ExitCode::from(2)
        }
    }
}

struct Wanted {
    list: bool,
    /// Seconds for one trial.
    limit: u64,
    names: Vec<String>,
}

fn arguments() -> Result<Wanted, String> {
    let mut out = Wanted {
        list: false,
        limit: 600,
        names: Vec::new(),
    };
    let mut words = std::env::args().skip(1);
    while let Some(word) = words.next() {
        match word.as_str() {
            "--list" => out.list = true,
            "--limit" => {
                let number = words.next().and_then(|n| n.parse().ok());
                out.limit = number.filter(|n| *n > 0).ok_or(USAGE)?;
            }
            _ if word.starts_with('-') => return Err(USAGE.into()),
            _ => out.names.push(word),
        }
    }
    Ok(out)
}

fn run() -> Result<bool, String> {
    let wanted = arguments()?;
    let root = Path::new(env!("CARGO_MANIFEST_DIR")).join("..");
    let all = read_lists(&root.join("tools/weakenings"))?;
    let chosen = chosen(&all, &wanted.names)?;
    if wanted.list {
        for weakening in chosen {
            println!("{}: {}", weakening.name, weakening.says);
        }
        return Ok(true);
    }
    for weakening in &chosen {
        edited(&root, weakening)?;
    }
    let copy = Copy::new(&root, &chosen)?;
    let began = Instant::now();
    let mut trials = Vec::new();
    for weakening in chosen {
        let start = Instant::now();
        let outcome = copy.trial(weakening, wanted.limit)?;
        report(weakening, &outcome, start.elapsed().as_secs());
        trials.push((weakening, outcome));
    }
    print!("\n{}\n", table(&trials));
    let seconds = began.elapsed().as_secs();
    println!("{} ({seconds} s)", tally(&trials));
    Ok(trials.iter().all(|(w, o)| o.is_expected(w)))
}

fn chosen<'a>(all: &'a [Weakening], names: &[String]) -> Result<Vec<&'a Weakening>, String> {
    let is = |w: &Weakening, name: &str| {
        w.name == name || w.name.split('/').next().is_some_and(|list| list == name)
    };
    for name in names {
        if !all.iter().any(|w| is(w, name)) {
            return Err(format!("no list and no weakening {name}"));
        }
    }
    let wanted = |w: &&Weakening| names.is_empty() || names.iter().any(|n| is(w, n));
    Ok(all.iter().filter(wanted).collect())
}

/// A copy of the sources and of what is proved, outside the repository; removed at the end.
struct Copy {
    folder: PathBuf,
    tree: PathBuf,
}

impl Drop for Copy {
    fn drop(&mut self) {
        std::fs::remove_dir_all(&self.folder).ok();
    }
}

impl Copy {
    /// Copies the sources and what is proved of the crates that are wanted, proves the rest of them
    /// as they are, and keeps what is proved to come back to after a trial.
    fn new(root: &Path, chosen: &[&Weakening]) -> Result<Copy, String> {
        let name = format!("recomp-weakenings-{}", std::process::id());
        let folder = std::env::temp_dir().join(name);
        let tree = folder.join("tree");
        let copy = Copy { folder, tree };
        made(&copy.tree)?;
        copied(&root.join("crates.txt"), &copy.tree)?;
        let text = std::fs::read_to_string(root.join("crates.txt")).map_err(|e| e.to_string())?;
        let list = listed(&text);
        for Listed { name, .. } in &list {
            sources_of(name, root, &copy.tree)?;
        }
        let wanted: Vec<&str> = names(chosen);
        let all = with_used(&list, &wanted);
        proved_of(&all, root, &copy.tree)?;
        for name in &wanted {
            let output = copy.check(name, 86_400)?;
            if !output.status.success() {
                let said = String::from_utf8_lossy(&output.stderr);
                let which = refused_below(&said).unwrap_or(name);
                return Err(format!("{which} is not proved as it stands"));
            }
        }
        proved_of(&all, &copy.tree, &copy.folder.join("kept"))?;
        Ok(copy)
    }

    /// Has `rt` check a crate, with those below it.
    fn check(&self, name: &str, seconds: u64) -> Result<Output, String> {
        let mut command = Command::new("timeout");
        command.arg(seconds.to_string());
        command.args(["rt", "check", "--jobs", "1"]);
        command.current_dir(self.tree.join("crates").join(name));
        command.output().map_err(|e| format!("timeout, rt: {e}"))
    }

    /// Applies a weakening, proves crate after crate up to the first refusal, and takes it back.
    fn trial(&self, weakening: &Weakening, limit: u64) -> Result<Outcome, String> {
        let before = apply(&self.tree, weakening)?;
        let outcome = self.proved(weakening, limit);
        write(&self.tree, &before)?;
        self.restore()?;
        outcome
    }

    fn proved(&self, weakening: &Weakening, limit: u64) -> Result<Outcome, String> {
        let began = Instant::now();
        for name in &weakening.prove {
            let left = limit.saturating_sub(began.elapsed().as_secs()).max(1);
            let output = self.check(name, left)?;
            let [printed, said] =
                [&output.stdout, &output.stderr].map(|text| String::from_utf8_lossy(text));
            match output.status.code() {
                Some(0) => {}
                Some(1) => {
                    let by = refused_below(&said).unwrap_or(name).to_string();
                    let faults = faults(&printed, &by);
                    return Ok(Outcome::Refused { by, faults });
                }
                Some(124) => {
                    let proving = name.clone();
                    return Ok(Outcome::OutOfTime { proving });
                }
                status => return Err(format!("rt ended with {status:?}:\n{printed}{said}")),
            }
        }
        Ok(Outcome::Survived)
    }

    /// Libraries that were built of changed sources give way to those that were kept.
    fn restore(&self) -> Result<(), String> {
        let kept = self.folder.join("kept/crates");
        for folder in std::fs::read_dir(&kept).map_err(|e| e.to_string())? {
            let kept = folder.map_err(|e| e.to_string())?.path();
            let name = kept.file_name().unwrap_or_default();
            let now = self.tree.join("crates").join(name);
            let stamp = |folder: &Path| std::fs::read(folder.join("out/rlib/stamp")).ok();
            if stamp(&now) != stamp(&kept) {
                std::fs::remove_dir_all(now.join("out")).ok();
                if kept.join("out").exists() {
                    copied(&kept.join("out"), &now)?;
                }
            }
        }
        Ok(())
    }
}

/// The crates that some weakenings name, each once.
fn names<'a>(chosen: &[&'a Weakening]) -> Vec<&'a str> {
    let mut out: Vec<&str> = Vec::new();
    for name in chosen.iter().flat_map(|w| &w.prove) {
        if !out.contains(&name.as_str()) {
            out.push(name);
        }
    }
    out
}

/// Copies the sources of a crate from one repository to another.
fn sources_of(name: &str, from: &Path, into: &Path) -> Result<(), String> {
    let [from, into] = [from, into].map(|root| root.join("crates").join(name));
    made(&into)?;
    let failed = |e: std::io::Error| format!("{}: {e}", from.display());
    for entry in std::fs::read_dir(&from).map_err(failed)? {
        let path = entry.map_err(failed)?.path();
        if !path.ends_with("out") {
            copied(&path, &into)?;
        }
    }
    Ok(())
}

/// Copies what is proved of some crates from one repository to another.
fn proved_of(crates: &BTreeSet<String>, from: &Path, into: &Path) -> Result<(), String> {
    for name in crates {
        let [from, into] = [from, into].map(|root| root.join("crates").join(name));
        made(&into)?;
        if from.join("out").exists() {
            copied(&from.join("out"), &into)?;
        }
    }
    Ok(())
}

fn made(folder: &Path) -> Result<(), String> {
    std::fs::create_dir_all(folder).map_err(|e| format!("{}: {e}", folder.display()))
}

/// Copies a file or a folder into a folder, with its times.
fn copied(from: &Path, into: &Path) -> Result<(), String> {
    let status = Command::new("cp").arg("-a").arg(from).arg(into).status();
    match status {
        Ok(status) if status.success() => Ok(()),
        _ => Err(format!("{} was not copied", from.display())),
    }
}

fn report(weakening: &Weakening, outcome: &Outcome, seconds: u64) {
    let name = &weakening.name;
    match outcome {
        Outcome::Refused { by, faults } => {
            let what = if outcome.is_of_a_name() {
                "refused for a name, which tells nothing,"
            } else {
                "refused"
            };
            println!("{name}: {what} in {by} ({seconds} s)");
            for fault in faults.iter().take(4) {
                let message: String = fault.message.chars().take(240).collect();
                let place = format!("{}:{}", fault.file, fault.line);
                println!("    {place}: {}: {message}", fault.of);
            }
        }
        Outcome::Survived => println!("{name}: survived ({seconds} s)"),
        Outcome::OutOfTime { proving } => {
            println!("{name}: no answer in time, at {proving} ({seconds} s)");
        }
    }
    if !outcome.is_expected(weakening) && weakening.survives.is_some() {
        println!("    the list has a reason why it survives");
    }
}
