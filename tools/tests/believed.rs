//! What the promises reach: names are followed through imports, constructors and sections, and what
//! nothing names is not counted.

use recomp_tools::believed::Definitions;
use std::path::{Path, PathBuf};

/// A folder with files in it, removed at the end.
struct Folder(PathBuf);

impl Folder {
    fn new(name: &str, files: &[(&str, &str)]) -> Folder {
        let name = format!("recomp-tools-{name}-{}", std::process::id());
        let folder = Folder(std::env::temp_dir().join(name));
        for (path, text) in files {
            let path = folder.0.join(path);
            std::fs::create_dir_all(path.parent().expect("a folder")).expect("made");
            std::fs::write(path, text).expect("written");
        }
        folder
    }
}

impl Drop for Folder {
    fn drop(&mut self) {
        std::fs::remove_dir_all(&self.0).ok();
    }
}

const CODE: &str = "\
// The code.
ghost use Rattle.std.specs.Prelude.{length};
ghost use Rattle.upper.specs.Upper.{promised};

pub struct Pair {
    // a comment
    low: u32,
}
";

const UPPER: &str = "\
-- Definitions.
use Rattle.std.specs.Prelude.{ℕ}
use Rattle.lower.specs.Lower.{first,
  second as other}

-- what is promised
abbrev pub promised : ℕ → ℕ
promised n =
    other (first n)

-- what nothing names
abbrev pub unused : ℕ
unused = 0
";

const LOWER: &str = "\
-- Definitions.
use Rattle.upper.specs.declared.Pair.{Pair}

-- a type
pub data Kind : Type 0 where
  -- one of it
  low high : Kind

module _ (k : Kind) where
  -- by a constructor
  pub record Same : Type 0 where
    pub at : k ≡ low

abbrev pub first : ℕ → ℕ
first n = n -- and a comment

unfoldable pub second : Same high → Pair
second s = s.at
";

fn lines(root: &Path, crates: &[&str]) -> Vec<(String, Vec<String>, usize)> {
    let all = Definitions::read(root).expect("crates");
    let counted = all.reached(root, crates).expect("code");
    counted
        .into_iter()
        .map(|c| (c.module, c.names, c.lines))
        .collect()
}

#[test]
fn names_are_followed() {
    let folder = Folder::new(
        "believed",
        &[
            ("crates/upper/src/lib.rt", CODE),
            ("crates/upper/specs/Upper.antt", UPPER),
            ("crates/lower/specs/Lower.antt", LOWER),
        ],
    );
    let expected = [
        (
            "lower/specs/Lower",
            vec!["Kind", "Same", "first", "second"],
            8,
        ),
        ("upper/specs/Upper", vec!["promised"], 3),
        ("upper/src", vec!["Pair"], 3),
    ];
    let expected = expected.map(|(module, names, lines)| {
        let names = names.into_iter().map(String::from).collect::<Vec<_>>();
        (module.to_string(), names, lines)
    });
    assert_eq!(lines(&folder.0, &["upper"]), expected);
}

#[test]
fn this_repository() {
    let counted = lines(
        &Path::new(env!("CARGO_MANIFEST_DIR")).join(".."),
        &["recomp"],
    );
    let has = |module: &str, name: &str| {
        counted
            .iter()
            .any(|(m, names, _)| m == module && names.iter().any(|n| n == name))
    };
    assert!(has("file_blocks/specs/Parse", "parse"));
    assert!(has("claim_ways/specs/Ways", "Way"));
    assert!(has("armv4t/src", "Op"));
    assert!(!has("armv4t_manual/specs/Examples", "both"));
}
