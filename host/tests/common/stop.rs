//! Runs that are killed, halted or made to fail at a call that changes files.

use super::{program, root, Run};
use std::fs;
use std::process::{Child, Command, Stdio};
use std::sync::OnceLock;
use std::time::{Duration, Instant};

/// What happens at the call.
#[derive(Clone, Copy, Debug, PartialEq, Eq)]
pub enum By {
    Kill,
    Halt,
    Fail,
}

/// The library that is loaded into the program, made once for each program of tests.
fn library() -> &'static str {
    static MADE: OnceLock<String> = OnceLock::new();
    MADE.get_or_init(|| {
        let folder = env!("CARGO_TARGET_TMPDIR");
        let own = format!("{folder}/stop-{}.so", std::process::id());
        let source = root().join("host/tests/common/stop.c");
        let mut compiler = Command::new("cc");
        compiler.args([
            "-shared", "-fPIC", "-Wall", "-Wextra", "-Werror", "-o", &own,
        ]);
        let output = compiler.arg(source).output().expect("a C compiler");
        assert_eq!(Run::of(output).printed(), "");
        let shared = format!("{folder}/stop.so");
        fs::rename(own, &shared).expect("a name for the library");
        shared
    })
}

/// The program with what happens at the call of this number, from 1, of those of one name or of
/// any.
pub fn stopping<A: AsRef<std::ffi::OsStr>>(args: &[A], by: By, call: &str, at: u32) -> Command {
    let mut command = program(args);
    command.env("LD_PRELOAD", library());
    command.env("STOP_AT", at.to_string());
    command.env("STOP_BY", format!("{by:?}").to_lowercase());
    if call != "any" {
        command.env("STOP_CALL", call);
    }
    command
}

/// A run that stands still before a call.
pub struct Halted(Child);

impl Halted {
    pub fn before(args: &[&str], call: &str, at: u32) -> Halted {
        let mut command = stopping(args, By::Halt, call, at);
        command.stdout(Stdio::piped()).stderr(Stdio::piped());
        let child = command.spawn().expect("the program starts");
        let start = Instant::now();
        while !stands_still(child.id()) {
            assert!(start.elapsed() < Duration::from_secs(60), "it halts");
            std::thread::sleep(Duration::from_millis(2));
        }
        Halted(child)
    }

    /// Lets it go on to its end.
    pub fn end(self) -> Run {
        self.signal("CONT");
        Run::of(self.0.wait_with_output().expect("the program ends"))
    }

    /// Ends it where it stands.
    pub fn kill(mut self) {
        self.0.kill().expect("the program is stopped");
        assert_eq!(self.0.wait().expect("it ends").code(), None);
    }

    fn signal(&self, name: &str) {
        let line = format!("kill -{name} {}", self.0.id());
        let sent = Command::new("sh").args(["-c", &line]).status();
        assert!(sent.expect("the shell runs").success());
    }
}

fn stands_still(process: u32) -> bool {
    let said = fs::read_to_string(format!("/proc/{process}/stat")).expect("the process");
    let state = said.rsplit_once(") ").expect("name and state").1;
    assert!(!state.starts_with('Z'), "it ended before the call");
    state.starts_with('T')
}
