//! Weakenings of definitions: the lists that hold them, how one is applied to a copy of the
//! sources, and what the prover's output says of it.

use crate::floors::Listed;
use std::collections::BTreeSet;
use std::path::Path;

/// What becomes of a file's text.
#[derive(Debug, PartialEq)]
pub enum Change {
    /// A text that is there once gives way to another.
    Replace { old: String, new: String },
    /// The line with a text that is there once goes, and with it the lines after it that are
    /// indented deeper: a clause, a rule, a declaration's signature.
    Drop(String),
}

/// A change of one file, named from the root of the repository.
#[derive(Debug, PartialEq)]
pub struct Edit {
    pub file: String,
    pub change: Change,
}

/// A definition that says less, and the crates to prove with it, in order.
#[derive(Debug, PartialEq)]
pub struct Weakening {
    pub name: String,
    pub says: String,
    pub prove: Vec<String>,
    /// Why no proof refuses it, where that is known.
    pub survives: Option<String>,
    /// The declaration whose refusal tells most; without it the first that is refused for a fact.
    pub by: Option<String>,
    pub edits: Vec<Edit>,
}

/// Reads a list. Before its first weakening a list names the file and the crates that hold for
/// all of them; a weakening may name others.
pub fn parse(list: &str, text: &str) -> Result<Vec<Weakening>, String> {
    let mut reader = Reader::default();
    for (line, key, value) in fields(text).map_err(|e| format!("{list}: {e}"))? {
        reader
            .take(list, &key, value)
            .map_err(|e| format!("{list}:{line}: {e}"))?;
    }
    reader.close().map_err(|e| format!("{list}: {e}"))?;
    Ok(reader.out)
}

/// All weakenings of the lists in a folder, list by list in the order of their names.
pub fn read_lists(folder: &Path) -> Result<Vec<Weakening>, String> {
    let failed = |e: std::io::Error| format!("{}: {e}", folder.display());
    let mut paths = Vec::new();
    for entry in std::fs::read_dir(folder).map_err(failed)? {
        paths.push(entry.map_err(failed)?.path());
    }
    paths.sort();
    let mut out = Vec::new();
    for path in paths {
        let text = std::fs::read_to_string(&path).map_err(failed)?;
        let name = path.file_stem().unwrap_or_default().to_string_lossy();
        out.extend(parse(&name, &text)?);
    }
    Ok(out)
}

/// The fields of a list: line, key, value. A line that begins with `   |` goes on with the value,
/// one line further; `#` begins a comment.
fn fields(text: &str) -> Result<Vec<(usize, String, String)>, String> {
    let mut out: Vec<(usize, String, String)> = Vec::new();
    for (at, line) in text.lines().enumerate() {
        if let Some(more) = line.strip_prefix("   |") {
            let Some((_, _, value)) = out.last_mut() else {
                return Err(format!("line {}: nothing goes on here", at + 1));
            };
            value.push('\n');
            value.push_str(more);
        } else if !line.trim().is_empty() && !line.starts_with('#') {
            let Some((key, value)) = line.split_once(':') else {
                return Err(format!("line {}: no field", at + 1));
            };
            let value = value.strip_prefix(' ').unwrap_or(value);
            out.push((at + 1, key.to_string(), value.to_string()));
        }
    }
    Ok(out)
}

#[derive(Default)]
struct Reader {
    out: Vec<Weakening>,
    file: String,
    prove: Vec<String>,
    /// The file of the weakening that is being read, and a text without its replacement yet.
    own: String,
    old: Option<String>,
}

impl Reader {
    fn take(&mut self, list: &str, key: &str, value: String) -> Result<(), String> {
        if key == "weakening" {
            return self.open(list, &value);
        }
        let words = || value.split_whitespace().map(str::to_string).collect();
        let Some(current) = self.out.last_mut() else {
            match key {
                "file" => self.file = value,
                "prove" => self.prove = words(),
                _ => return Err(format!("`{key}` before the first weakening")),
            }
            return Ok(());
        };
        let file = self.own.clone();
        match (key, self.old.take()) {
            ("says", None) => current.says = value,
            ("prove", None) => current.prove = words(),
            ("survives", None) => current.survives = Some(value),
            ("by", None) => current.by = Some(value),
            ("file", None) => self.own = value,
            ("old", None) => self.old = Some(value),
            ("new", Some(old)) => {
                let change = Change::Replace { old, new: value };
                current.edits.push(Edit { file, change });
            }
            ("drop", None) => {
                let change = Change::Drop(value);
                current.edits.push(Edit { file, change });
            }
            (_, None) => return Err(format!("unknown field `{key}`")),
            (_, Some(_)) => return Err("an `old` without its `new`".into()),
        }
        Ok(())
    }

    fn open(&mut self, list: &str, name: &str) -> Result<(), String> {
        self.close()?;
        let name = format!("{list}/{name}");
        if self.out.iter().any(|w| w.name == name) {
            return Err(format!("{name} is there twice"));
        }
        self.own = self.file.clone();
        self.out.push(Weakening {
            name,
            says: String::new(),
            prove: self.prove.clone(),
            survives: None,
            by: None,
            edits: Vec::new(),
        });
        Ok(())
    }

    /// The weakening that was read is whole.
    fn close(&self) -> Result<(), String> {
        let Some(last) = self.out.last() else {
            return Ok(());
        };
        let missing = match last {
            _ if self.old.is_some() => "the `new` of its last `old`",
            w if w.says.is_empty() => "`says`",
            w if w.prove.is_empty() => "`prove`",
            w if w.edits.is_empty() => "an edit",
            w if w.edits.iter().any(|e| e.file.is_empty()) => "`file`",
            _ => return Ok(()),
        };
        Err(format!("{} lacks {missing}", last.name))
    }
}

/// A text with a change made in it.
pub fn changed(text: &str, change: &Change) -> Result<String, String> {
    let (Change::Replace { old: sought, .. } | Change::Drop(sought)) = change;
    let at = once(text, sought)?;
    match change {
        Change::Replace { old, new } => {
            Ok([&text[..at], new.as_str(), &text[at + old.len()..]].concat())
        }
        Change::Drop(_) => Ok(without(text, at)),
    }
}

/// Where a text stands that has to be there once.
fn once(text: &str, sought: &str) -> Result<usize, String> {
    let first = sought.lines().next().unwrap_or("");
    match text.matches(sought).count() {
        _ if sought.is_empty() => Err("no text is sought".into()),
        0 => Err(format!("`{first}` is not there")),
        1 => Ok(text.find(sought).expect("counted")),
        n => Err(format!("`{first}` is there {n} times")),
    }
}

/// A text without the line at a place and the lines after it that are indented deeper.
fn without(text: &str, at: usize) -> String {
    let start = text[..at].rfind('\n').map_or(0, |n| n + 1);
    let indent = |line: &str| line.len() - line.trim_start().len();
    let mut lines = text[start..].split_inclusive('\n');
    let first = lines.next().unwrap_or("");
    let mut end = start + first.len();
    let mut place = end;
    for line in lines {
        place += line.len();
        if !line.trim().is_empty() {
            if indent(line) <= indent(first) {
                break;
            }
            end = place;
        }
    }
    [&text[..start], &text[end..]].concat()
}

/// The files that a weakening changes, below a root: as they are, and with the changes made.
type Files = Vec<(String, String)>;

/// The changes of a weakening, made in memory.
pub fn edited(root: &Path, weakening: &Weakening) -> Result<(Files, Files), String> {
    let mut before: Files = Vec::new();
    let mut after: Files = Vec::new();
    for Edit { file, change } in &weakening.edits {
        let failed = |e: String| format!("{}: {file}: {e}", weakening.name);
        let place = match after.iter().position(|(f, _)| f == file) {
            Some(place) => place,
            None => {
                let text = std::fs::read_to_string(root.join(file));
                let text = text.map_err(|e| failed(e.to_string()))?;
                before.push((file.clone(), text.clone()));
                after.push((file.clone(), text));
                after.len() - 1
            }
        };
        after[place].1 = changed(&after[place].1, change).map_err(failed)?;
    }
    Ok((before, after))
}

/// Makes the changes of a weakening in the sources below a root, and hands back the files as they
/// were. Nothing is written where one of them cannot be made.
pub fn apply(root: &Path, weakening: &Weakening) -> Result<Files, String> {
    let (before, after) = edited(root, weakening)?;
    write(root, &after)?;
    Ok(before)
}

/// Writes files below a root.
pub fn write(root: &Path, files: &[(String, String)]) -> Result<(), String> {
    for (file, text) in files {
        std::fs::write(root.join(file), text).map_err(|e| format!("{file}: {e}"))?;
    }
    Ok(())
}

/// What the prover says of a declaration that it refuses.
#[derive(Debug, PartialEq)]
pub struct Fault {
    /// The file, from the root of the repository.
    pub file: String,
    pub line: String,
    /// The declaration, where one is named.
    pub of: String,
    pub message: String,
}

impl Fault {
    /// A name or a clause is missing: nothing is said of a fact, and the weakening is to be mended.
    pub fn is_of_a_name(&self) -> bool {
        let marks = [
            "that can be named",
            "no clause covers",
            "can never apply",
            "no implicit argument",
            "level argument",
            "is not a field of",
            "is not in scope",
        ];
        marks.iter().any(|m| self.message.contains(m))
    }

    /// It names a declaration that is refused itself.
    fn follows(&self) -> bool {
        self.message.contains("was not admitted") || self.message.contains("was rejected")
    }
}

/// The refused declarations in what `rt` printed of a crate, without those that only name a refused
/// one; those of a fact first.
pub fn faults(printed: &str, of: &str) -> Vec<Fault> {
    let mut out: Vec<Fault> = printed.lines().filter_map(|l| fault(l, of)).collect();
    out.retain(|f| !f.follows());
    out.sort_by_key(Fault::is_of_a_name);
    out
}

/// The fault in a line of what `rt` printed, which names files from the folder of the crate.
fn fault(line: &str, name: &str) -> Option<Fault> {
    let (place, message) = line.split_once(": error: ")?;
    let mut parts = place.rsplitn(3, ':');
    let (_, line, file) = (parts.next()?, parts.next()?, parts.next()?);
    let file = file.trim_start_matches("./");
    let (of, message) = match message.strip_prefix('`').and_then(|m| m.split_once("`: ")) {
        Some((of, message)) => (of, message),
        None => ("", message),
    };
    Some(Fault {
        file: format!("crates/{name}/{file}"),
        line: line.to_string(),
        of: of.to_string(),
        message: message.to_string(),
    })
}

/// Some crates and all that they use, in turn, by the lines of a list of crates.
pub fn with_used(list: &[Listed], names: &[&str]) -> BTreeSet<String> {
    let mut out = BTreeSet::new();
    let mut open: Vec<String> = names.iter().map(|n| n.to_string()).collect();
    while let Some(name) = open.pop() {
        if let Some(line) = list.iter().find(|l| l.name == name) {
            if out.insert(name) {
                open.extend(line.uses.iter().cloned());
            }
        }
    }
    out
}

/// The library below a crate that `rt check` of the crate found not proved, if that is what it says.
pub fn refused_below(said: &str) -> Option<&str> {
    let lines = said.lines();
    let mut named = lines.filter_map(|l| l.strip_prefix("rt: the library "));
    named
        .find(|l| l.contains(" did not build"))?
        .split(' ')
        .next()
}

/// What a trial came to.
#[derive(Debug, PartialEq)]
pub enum Outcome {
    Refused { by: String, faults: Vec<Fault> },
    Survived,
    OutOfTime { proving: String },
}

impl Outcome {
    /// Refused for names alone, so that nothing is known.
    pub fn is_of_a_name(&self) -> bool {
        matches!(self, Outcome::Refused { faults, .. } if faults.iter().all(Fault::is_of_a_name))
    }

    /// The refusal that tells most, where it is refused for a fact.
    fn telling(&self, weakening: &Weakening) -> Option<&Fault> {
        let Outcome::Refused { faults, .. } = self else {
            return None;
        };
        let told = |f: &&Fault| weakening.by.as_ref().is_none_or(|by| f.of == *by);
        faults.iter().filter(|f| !f.is_of_a_name()).find(told)
    }

    /// What the table has for it: the declaration and its file, or why it survives.
    pub fn shown(&self, weakening: &Weakening) -> String {
        match self {
            Outcome::Refused { by, .. } => match self.telling(weakening) {
                Some(Fault { of, file, .. }) => {
                    let file = file.strip_prefix("crates/").unwrap_or(file);
                    format!("`{of}`, `{file}`")
                }
                None => format!("`{by}`, for a name"),
            },
            Outcome::Survived => match &weakening.survives {
                Some(reason) => format!("survives: {reason}"),
                None => "survives".into(),
            },
            Outcome::OutOfTime { proving } => format!("no answer in time, at `{proving}`"),
        }
    }

    /// It is what the list says: refused for a fact, or survived for a reason that is given.
    pub fn is_expected(&self, weakening: &Weakening) -> bool {
        match self {
            Outcome::Refused { .. } => {
                weakening.survives.is_none() && self.telling(weakening).is_some()
            }
            Outcome::Survived => weakening.survives.is_some(),
            Outcome::OutOfTime { .. } => false,
        }
    }
}

/// The table of some trials, to be kept in the docs.
pub fn table(trials: &[(&Weakening, Outcome)]) -> String {
    let mut out = String::from("| weakening | what it says then | refused by |\n|---|---|---|\n");
    for (weakening, outcome) in trials {
        let shown = outcome.shown(weakening);
        let row = format!("| `{}` | {} | {shown} |\n", weakening.name, weakening.says);
        out.push_str(&row);
    }
    out
}

/// How many were refused, and how many survived; and, where there are any, those that tell nothing.
pub fn tally(trials: &[(&Weakening, Outcome)]) -> String {
    let count = |f: &dyn Fn(&Outcome) -> bool| trials.iter().filter(|(_, o)| f(o)).count();
    let refused = count(&|o| matches!(o, Outcome::Refused { .. }));
    let survived = count(&|o| *o == Outcome::Survived);
    let of_a_name = count(&Outcome::is_of_a_name);
    let late = count(&|o| matches!(o, Outcome::OutOfTime { .. }));
    let mut out = format!("{refused} refused, {survived} survived");
    if of_a_name > 0 {
        out.push_str(&format!("; {of_a_name} of the refused for a name alone"));
    }
    if late > 0 {
        out.push_str(&format!("; {late} without an answer in time"));
    }
    out
}
