//! A made-up repository with the launcher and `lib/archive`. The kit is a script, which says what
//! `rt` says and proves nothing, and so is cargo, until the real one is asked for.

use super::{copy, root, Run, Scratch, PROGRAM};
use std::fs::{self, Permissions};
use std::os::unix::fs::{symlink, PermissionsExt};
use std::path::{Path, PathBuf};
use std::process::{Command, Stdio};

/// Programs that the scripts may call besides those that they ask for.
const TOOLS: [&str; 20] = [
    "awk", "cat", "cmp", "cp", "cut", "date", "dirname", "find", "grep", "mkdir", "mktemp", "mv",
    "readlink", "rm", "sed", "sleep", "sort", "tail", "tee", "touch",
];

/// Those that they ask for, but rt, cargo and cc.
const ASKED_FOR: [&str; 3] = ["flock", "sh", "sha256sum"];

/// Three of these crates make up the library.
pub const CRATES: &str = "\
# NAME: the libraries that it uses directly
base:

# A comment
beside: base
middle: base
recomp staticlib: middle
above: middle base
";

/// The library that rt proves, and so the archive that is kept until something is changed.
pub const LIBRARY: &str = "the library";

/// It proves two crates; a third was proved before, and is not spoken of. What is on standard input
/// is taken away.
pub const RT: &str = r#"#!/bin/sh
if [ "$1" = version ]; then
    echo "$KIT"
    exit
fi
if [ "$1" = ci ]; then
    echo "rt: ok; handles allowed: none; must-fail edits: 7 refused${BAD:-}; every proof was done"
    echo '3 passed, 0 failed'
    exit "${GATE:-0}"
fi
cat >/dev/null
echo "rt $* in $PWD" >>"$CALLS"
out=$PWD/out
cd ../..
echo 'rt: chose --jobs 2 for middle' >&2
echo 'fn middle::same: proved'
[ -z "${WHILE_PROVING:-}" ] || eval "$WHILE_PROVING"
echo 'crate middle: modules loaded=3 checked=7'
echo 'logic=proved functions=7'
echo 'crate recomp: modules loaded=3 checked=2'
echo 'logic=proved functions=2'
mkdir -p "$out"
cp "$ARCHIVE" "$out/librecomp.a"
"#;

const CARGO: &str = r#"#!/bin/sh
cat >/dev/null
echo "cargo links $(cat "$RECOMP_LIBRARY")" >>"$CALLS"
echo 'what cargo prints'
[ -z "${WHILE_BUILDING:-}" ] || eval "$WHILE_BUILDING"
mkdir -p host/target/release
cp "$PROGRAM" host/target/release/recomp
"#;

/// What cargo needs to build the packages, and a sample.
const PARTS: [&str; 10] = [
    "crates.txt",
    "host/src",
    "host/build.rs",
    "host/Cargo.toml",
    "host/Cargo.lock",
    "tools/src",
    "tools/build.rs",
    "tools/Cargo.toml",
    "tools/Cargo.lock",
    "samples/count_down.blk",
];

/// The kit's name for itself.
pub const KIT: &str = "kit 1";

pub const KEPT: &str = "lib/x86_64-linux/librecomp.a";
pub const TEXT: &str = "lib/x86_64-linux/librecomp.txt";

/// Why the kept archive is not linked.
pub const OTHER_SOURCES: &str =
    "lib/x86_64-linux/librecomp.a was made from other sources than crates.txt and crates/";
pub const DAMAGED: &str =
    "lib/x86_64-linux/librecomp.a is not the archive that lib/x86_64-linux/librecomp.txt records";

/// A repository, and a folder of programs that are all that is found on the path.
pub struct Repository(pub Scratch);

impl Repository {
    /// It keeps no archive.
    pub fn new() -> Repository {
        let repository = Repository(Scratch::new());
        for folder in ["bin", "host/src"] {
            fs::create_dir_all(repository.path(folder)).expect("a folder");
        }
        for name in ["base", "middle", "recomp"] {
            let folder = format!("crates/{name}/src");
            fs::create_dir_all(repository.path(&folder)).expect("a folder");
            repository.put(&format!("{folder}/lib.rt"), "");
        }
        for file in ["src/main.rs", "build.rs", "Cargo.toml", "Cargo.lock"] {
            repository.put(&format!("host/{file}"), "");
        }
        repository.put("crates.txt", CRATES);
        repository.put("archive", LIBRARY);
        for part in ["recomp", "lib/archive", "lib/link.rs", ".ci/run"] {
            repository.take(part);
        }
        for tool in TOOLS.iter().chain(&ASKED_FOR) {
            let path = on_path(tool).expect(tool);
            symlink(path, repository.path("bin").join(tool)).expect("a link");
        }
        repository.script("rt", RT);
        repository.script("cargo", CARGO);
        repository.script("cc", "#!/bin/sh\n");
        repository.script("uname", "#!/bin/sh\necho Linux x86_64\n");
        repository
    }

    /// It keeps the archive of its library.
    pub fn keeping() -> Repository {
        let repository = Repository::new();
        repository.renew();
        repository
    }

    /// It has the real sources and the real library, and keeps no archive. Cargo and the compiler
    /// are not on its path.
    pub fn real() -> Repository {
        let repository = Repository::new();
        for folder in ["host", "crates"] {
            fs::remove_dir_all(repository.path(folder)).expect("the folder goes");
        }
        repository.take_crates();
        for part in PARTS {
            repository.take(part);
        }
        for tool in ["cargo", "cc"] {
            repository.without(tool);
        }
        let library = fs::copy(env!("RECOMP_LIBRARY"), repository.path("archive"));
        library.expect("the library");
        repository
    }

    /// Renews the kept archive, as nobody will remember.
    pub fn renew(&self) {
        let renewed = self.archive(&["renew"]);
        assert_eq!(renewed.status, Some(0), "{}", renewed.err);
        self.calls();
    }

    pub fn path(&self, name: &str) -> PathBuf {
        self.0.path().join(name)
    }

    pub fn put(&self, name: &str, text: &str) {
        fs::write(self.path(name), text).expect("a file");
    }

    pub fn has(&self, name: &str) -> String {
        fs::read_to_string(self.path(name)).expect("a file")
    }

    /// Changes one bit of the kept archive.
    pub fn damage(&self) {
        let mut bytes = fs::read(self.path(KEPT)).expect("the archive");
        let middle = bytes.len() / 2;
        bytes[middle] ^= 1;
        fs::write(self.path(KEPT), bytes).expect("the archive");
    }

    /// Takes a file or folder of the repository that these tests stand in.
    pub fn take(&self, part: &str) {
        let place = self.path(part);
        let folder = place.parent().expect("a folder");
        fs::create_dir_all(folder).expect("a folder");
        copy(&root().join(part), folder);
    }

    /// Takes its crates, without what rt has proved of them.
    fn take_crates(&self) {
        for folder in entries(&root().join("crates")) {
            let name = folder.file_name().expect("a name");
            let own = self.path("crates").join(name);
            fs::create_dir_all(&own).expect("a folder");
            for part in entries(&folder)
                .iter()
                .filter(|part| !part.ends_with("out"))
            {
                copy(part, &own);
            }
        }
    }

    pub fn script(&self, name: &str, text: &str) {
        let written = self.path("script");
        fs::write(&written, text).expect("a script");
        fs::set_permissions(&written, Permissions::from_mode(0o755)).expect("a mode");
        copy(&written, &self.path("bin").join(name));
    }

    /// Takes a program off the path.
    pub fn without(&self, tool: &str) {
        fs::remove_file(self.path("bin").join(tool)).expect("it goes");
    }

    pub fn command(&self, program: &Path, args: &[&str]) -> Command {
        let mut command = Command::new(program);
        command.args(args).stdin(Stdio::null());
        command.env("PATH", self.path("bin"));
        command.env("CALLS", self.path("calls"));
        command.env("ARCHIVE", self.path("archive"));
        command.env("KIT", KIT);
        command.env("PROGRAM", PROGRAM);
        command.env("RECOMP_LIBRARY", "/a/library/of/somebody/else");
        command
    }

    pub fn launcher(&self, args: &[&str]) -> Command {
        self.command(&self.path("recomp"), args)
    }

    pub fn run(&self, args: &[&str]) -> Run {
        finish(&mut self.launcher(args))
    }

    pub fn archive(&self, args: &[&str]) -> Run {
        finish(&mut self.command(&self.path("lib/archive"), args))
    }

    /// The calls of rt and cargo since they were last asked for.
    pub fn calls(&self) -> Vec<String> {
        let calls = fs::read_to_string(self.path("calls")).unwrap_or_default();
        let _ = fs::remove_file(self.path("calls"));
        calls.lines().map(String::from).collect()
    }

    /// The calls of a run that proves and builds.
    pub fn both_calls(&self) -> Vec<String> {
        vec![
            format!("rt lib in {}", self.0.join("crates/recomp")),
            format!("cargo links {LIBRARY}"),
        ]
    }

    /// Puts all that is on the path of these tests on that of a command, behind the scripts.
    pub fn with_all(&self, command: &mut Command) {
        let path = std::env::var_os("PATH").expect("a path");
        let places = [self.path("bin")]
            .into_iter()
            .chain(std::env::split_paths(&path));
        command.env("PATH", std::env::join_paths(places).expect("a path"));
    }
}

/// What stands in a folder.
fn entries(folder: &Path) -> Vec<PathBuf> {
    let entries = fs::read_dir(folder).expect("a folder");
    entries
        .map(|entry| entry.expect("an entry").path())
        .collect()
}

pub fn finish(command: &mut Command) -> Run {
    Run::of(command.output().expect("it runs"))
}

/// Where the path of these tests has a program.
fn on_path(name: &str) -> Option<PathBuf> {
    let path = std::env::var_os("PATH")?;
    let mut places = std::env::split_paths(&path).map(|folder| folder.join(name));
    places.find(|place| place.is_file())
}
