//! The definitions that a reader of the promises must believe: those that the contracts of some
//! crates name, and those that these name in turn, counted by file.

use std::collections::{BTreeMap, BTreeSet};
use std::path::{Path, PathBuf};

/// A definition: the names that stand in it, and its lines without comments and blank lines.
#[derive(Default)]
struct Definition {
    words: BTreeSet<String>,
    lines: usize,
}

/// A file of definitions or types: what it defines, the constructors of its types, and where the
/// names come from that it uses.
#[derive(Default)]
struct Module {
    definitions: BTreeMap<String, Definition>,
    constructors: BTreeMap<String, String>,
    imports: BTreeMap<String, (String, String)>,
}

/// All modules by their names: `CRATE/specs/MODULE` for definitions, `CRATE/src` for types.
pub struct Definitions {
    modules: BTreeMap<String, Module>,
}

/// Lines to be believed in one module.
pub struct Counted {
    pub module: String,
    pub names: Vec<String>,
    pub lines: usize,
}

impl Definitions {
    /// Reads the definitions and the types of a repository's crates.
    pub fn read(root: &Path) -> std::io::Result<Definitions> {
        let mut modules = BTreeMap::new();
        for entry in std::fs::read_dir(root.join("crates"))? {
            let folder = entry?.path();
            let name = file_name(&folder);
            for path in files(&folder.join("specs"), "antt") {
                let text = std::fs::read_to_string(&path)?;
                let module = format!("{name}/specs/{}", stem(&path));
                modules.insert(module, definitions(&text));
            }
            let mut types = Module::default();
            for path in files(&folder.join("src"), "rt") {
                read_types(&std::fs::read_to_string(&path)?, &name, &mut types);
            }
            modules.insert(format!("{name}/src"), types);
        }
        Ok(Definitions { modules })
    }

    /// What the contracts of a crate's code reach, by module.
    pub fn reached(&self, root: &Path, crates: &[&str]) -> std::io::Result<Vec<Counted>> {
        let mut open = Vec::new();
        for name in crates {
            for path in files(&root.join("crates").join(name).join("src"), "rt") {
                let text = std::fs::read_to_string(&path)?;
                let imports = statements(&text, "ghost use ");
                open.extend(imports.iter().flat_map(|s| imported(s)).map(|i| i.1));
            }
        }
        Ok(self.follow(open))
    }

    fn follow(&self, mut open: Vec<(String, String)>) -> Vec<Counted> {
        let mut seen = BTreeSet::new();
        while let Some((module, name)) = open.pop() {
            let Some(from) = self.modules.get(&module) else {
                continue;
            };
            let name = from.constructors.get(&name).unwrap_or(&name).clone();
            let Some(definition) = from.definitions.get(&name) else {
                open.extend(from.imports.get(&name).cloned());
                continue;
            };
            if !seen.insert((module.clone(), name)) {
                continue;
            }
            for word in &definition.words {
                match from.imports.get(word) {
                    Some(place) => open.push(place.clone()),
                    None => open.push((module.clone(), word.clone())),
                }
            }
        }
        self.count(&seen)
    }

    fn count(&self, seen: &BTreeSet<(String, String)>) -> Vec<Counted> {
        let mut out: Vec<Counted> = Vec::new();
        for (module, name) in seen {
            let lines = self.modules[module].definitions[name].lines;
            match out.last_mut().filter(|c| c.module == *module) {
                Some(last) => {
                    last.names.push(name.clone());
                    last.lines += lines;
                }
                None => out.push(Counted {
                    module: module.clone(),
                    names: vec![name.clone()],
                    lines,
                }),
            }
        }
        out
    }
}

fn file_name(path: &Path) -> String {
    let name = path.file_name().unwrap_or_default();
    name.to_string_lossy().into_owned()
}

fn stem(path: &Path) -> String {
    let name = path.file_stem().unwrap_or_default();
    name.to_string_lossy().into_owned()
}

/// The files of a folder with an ending; none where there is no such folder.
fn files(folder: &Path, ending: &str) -> Vec<PathBuf> {
    let entries = std::fs::read_dir(folder).into_iter().flatten().flatten();
    let has = |path: &PathBuf| path.extension().is_some_and(|e| e == ending);
    entries.map(|e| e.path()).filter(has).collect()
}

/// The statements of a source that begin with some words, each in one line.
fn statements(text: &str, begin: &str) -> Vec<String> {
    let mut out: Vec<String> = Vec::new();
    let mut open = false;
    for line in text.lines() {
        if line.trim_start().starts_with(begin) {
            out.push(String::new());
            open = true;
        }
        if open {
            let last = out.last_mut().expect("begun");
            last.push_str(line.trim());
            open = last.contains('{') && !last.contains('}');
        }
    }
    out
}

/// The names that a `use` statement brings, and the module and name that each stands for.
fn imported(statement: &str) -> Vec<(String, (String, String))> {
    let Some((path, names)) = statement.split_once(".{") else {
        return Vec::new();
    };
    let Some(module) = module_of(path) else {
        return Vec::new();
    };
    let names = names.split('}').next().unwrap_or("");
    let name = |word: &str| {
        let mut parts = word.split(" as ");
        let there = parts.next().unwrap_or("").trim().to_string();
        let here = parts.next().unwrap_or(&there).trim().to_string();
        (here, (module.clone(), there))
    };
    names
        .split(',')
        .filter(|w| !w.trim().is_empty())
        .map(name)
        .collect()
}

/// The module that a path names: `Rattle.CRATE.specs.MODULE`, or a type's, below `specs.declared`.
fn module_of(path: &str) -> Option<String> {
    let path = path.split("Rattle.").nth(1)?;
    let parts: Vec<&str> = path.split('.').collect();
    match parts[..] {
        [name, "specs", "declared", ..] => Some(format!("{name}/src")),
        [name, "specs", module] => Some(format!("{name}/specs/{module}")),
        _ => None,
    }
}

/// The definitions of a file of antt.
fn definitions(text: &str) -> Module {
    let mut out = Module::default();
    for statement in statements(text, "use ") {
        out.imports.extend(imported(&statement));
    }
    let mut current: Option<String> = None;
    // The indent of the type that is being read, if it is one.
    let mut type_at: Option<usize> = None;
    let mut in_use = false;
    for line in text.lines() {
        let code = line.split(" -- ").next().unwrap_or("").trim_end();
        let bare = code.trim_start();
        if bare.is_empty() || bare.starts_with("--") {
            continue;
        }
        in_use = in_use || bare.starts_with("use ");
        if in_use {
            in_use = bare.contains('{') && !bare.contains('}') || !bare.contains('}') && in_use;
            in_use = in_use && !bare.contains(" as ");
            continue;
        }
        if bare.starts_with("module _") || bare.starts_with("pub mod ") || bare.starts_with("mod ")
        {
            current = None;
            type_at = None;
            continue;
        }
        let indent = code.len() - bare.len();
        let member = type_at.is_some_and(|at| indent > at);
        if let Some((name, is_type)) = head(bare).filter(|_| indent < 4 && !member) {
            type_at = is_type.then_some(indent);
            current = Some(name);
        }
        let Some(name) = &current else { continue };
        let definition = out.definitions.entry(name.clone()).or_default();
        definition.lines += 1;
        definition.words.extend(words(bare));
        if member {
            let before = bare.split(" : ").next().unwrap_or("").replace("pub ", "");
            for constructor in before.split_whitespace().filter(|_| bare.contains(" : ")) {
                out.constructors.insert(constructor.into(), name.clone());
            }
        }
    }
    out
}

/// The name that a line declares, and whether it is a type's.
fn head(line: &str) -> Option<(String, bool)> {
    let mut rest = line;
    let mut marked = false;
    for mark in ["abbrev ", "unfoldable ", "pub "] {
        if let Some(after) = rest.strip_prefix(mark) {
            rest = after;
            marked = true;
        }
    }
    for kind in ["data ", "record "] {
        if let Some(after) = rest.strip_prefix(kind) {
            return Some((after.split_whitespace().next()?.to_string(), true));
        }
    }
    let name = rest.split_whitespace().next()?;
    let declares = rest[name.len()..].trim_start().starts_with(':');
    (marked || declares).then(|| (name.to_string(), false))
}

/// The words of a line of antt: names, and the parts of names that hold a dot.
fn words(line: &str) -> BTreeSet<String> {
    let strings: String = line.split('"').step_by(2).collect::<Vec<_>>().join(" ");
    let apart = |c: char| c.is_whitespace() || "(){}[];,".contains(c);
    let mut out = BTreeSet::new();
    for word in strings
        .split(apart)
        .filter(|w| !w.is_empty() && !w.starts_with('.'))
    {
        out.insert(word.trim_end_matches('.').to_string());
        out.insert(word.split('.').next().unwrap_or("").to_string());
        out.insert(format!("◌{word}◌"));
    }
    out
}

/// The structs and enums of a file of code, into the types of its crate.
fn read_types(text: &str, own: &str, out: &mut Module) {
    for statement in statements(text, "use ")
        .iter()
        .chain(&statements(text, "pub use "))
    {
        let path = statement
            .trim_start_matches("pub ")
            .trim_start_matches("use ");
        let (path, names) = match path.split_once('{') {
            Some((path, names)) => (path, names.split('}').next().unwrap_or("")),
            None => path.rsplit_once("::").unwrap_or((path, "")),
        };
        let from = path.split("::").next().unwrap_or("");
        if from == "crate" || from == own {
            continue;
        }
        let names = names.split([',', ';']).map(str::trim);
        for name in names.filter(|n| !n.is_empty()) {
            let place = (format!("{from}/src"), name.to_string());
            out.imports.insert(name.to_string(), place);
        }
    }
    let mut current: Option<String> = None;
    for line in text.lines() {
        let bare = line.split("//").next().unwrap_or("").trim();
        let declared = ["pub struct ", "pub enum ", "pub(crate) struct "];
        for rest in declared.iter().filter_map(|d| bare.strip_prefix(d)) {
            let name: String = rest.chars().take_while(|c| c.is_alphanumeric()).collect();
            current = Some(name);
        }
        if let (Some(name), false) = (&current, bare.is_empty()) {
            let definition = out.definitions.entry(name.clone()).or_default();
            definition.lines += 1;
            let apart = |c: char| !(c.is_alphanumeric() || c == '_');
            definition
                .words
                .extend(bare.split(apart).map(str::to_string));
        }
        if line == "}" || bare.ends_with(';') && line.starts_with("pub struct") {
            current = None;
        }
    }
}
