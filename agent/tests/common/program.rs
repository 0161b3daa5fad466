//! The command, run as a program.

use std::env;
use std::io::Write;
use std::process::{Child, Command, Stdio};

/// The command, under the emulator where cargo runs its programs under one.
pub fn tzb(arguments: &[&str]) -> Command {
    let built = env!("CARGO_BIN_EXE_tzb");
    let mut command = match env::var_os("CARGO_TARGET_X86_64_UNKNOWN_LINUX_GNU_RUNNER") {
        Some(runner) => {
            let mut command = Command::new(runner);
            command.arg(built);
            command
        }
        None => Command::new(built),
    };
    command.args(arguments).stdin(Stdio::piped()).stdout(Stdio::piped()).stderr(Stdio::piped());
    command
}

/// Exit status, standard output, standard error.
pub type Said = (Option<i32>, String, String);

/// The same, of a command that writes no text.
pub type Gave = (Option<i32>, Vec<u8>, String);

fn given(child: Child) -> Gave {
    let output = child.wait_with_output().unwrap();
    (output.status.code(), output.stdout, String::from_utf8(output.stderr).unwrap())
}

pub fn ended(child: Child) -> Said {
    text(given(child))
}

fn text((status, out, err): Gave) -> Said {
    (status, String::from_utf8(out).unwrap(), err)
}

pub fn run(arguments: &[&str], input: impl AsRef<[u8]>) -> Said {
    text(run_bytes(arguments, input))
}

pub fn run_bytes(arguments: &[&str], input: impl AsRef<[u8]>) -> Gave {
    let mut child = tzb(arguments).spawn().unwrap();
    // A command that does not read its input may have ended by now.
    let _ = child.stdin.take().unwrap().write_all(input.as_ref());
    given(child)
}

pub fn answered(text: &str) -> Said {
    (Some(0), text.to_string(), String::new())
}

/// A file of that name, for the time of a test.
pub struct Kept(pub String);

impl Kept {
    pub fn new(name: &str, bytes: &[u8]) -> Self {
        let path = format!("{}/{name}", env!("CARGO_TARGET_TMPDIR"));
        std::fs::write(&path, bytes).unwrap();
        Self(path)
    }
}

impl Drop for Kept {
    fn drop(&mut self) {
        let _ = std::fs::remove_file(&self.0);
    }
}
