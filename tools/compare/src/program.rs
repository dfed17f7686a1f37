//! Runs a program on a sheet: standard input to standard output.
use std::io::{self, Read, Write};
use std::path::PathBuf;
use std::process::{ChildStdin, Command, Stdio};
use std::thread;
use std::time::Duration;

pub struct Program {
    pub name: &'static str,
    pub path: PathBuf,
}

/// The root of the repository.
fn root() -> PathBuf {
    PathBuf::from(env!("CARGO_MANIFEST_DIR")).join("../..")
}

/// The programs to compare; an environment variable may say where one is.
pub fn programs() -> Vec<Program> {
    let at = |variable: &str, usual: &str| std::env::var_os(variable).map_or(root().join(usual), PathBuf::from);
    vec![
        Program { name: "callsheet", path: at("CALLSHEET", "crates/callsheet/out/callsheet") },
        Program { name: "peer", path: at("PEER", "tools/target/release/peer") },
    ]
}

/// Writes the sheet, in small pieces with pauses if so asked. A program may stop reading early.
fn feed(mut pipe: ChildStdin, sheet: &[u8], piece: usize) {
    for part in sheet.chunks(piece) {
        if pipe.write_all(part).is_err() {
            return;
        }
        if piece < sheet.len() {
            thread::sleep(Duration::from_micros(200));
        }
    }
}

impl Program {
    /// All that the program prints; an error if it fails.
    pub fn run(&self, sheet: &[u8], piece: usize) -> io::Result<Vec<u8>> {
        let mut child = Command::new(&self.path).stdin(Stdio::piped()).stdout(Stdio::piped()).spawn()?;
        let input = child.stdin.take().expect("a pipe was asked for");
        let mut output = child.stdout.take().expect("a pipe was asked for");
        let mut said = Vec::new();
        thread::scope(|scope| {
            scope.spawn(move || feed(input, sheet, piece));
            output.read_to_end(&mut said)
        })?;
        let status = child.wait()?;
        if status.success() {
            Ok(said)
        } else {
            Err(io::Error::other(format!("{} ended with {status}", self.name)))
        }
    }
}
