//! Runs a program for its instructions or its time.
use std::error::Error;
use std::fs::File;
use std::path::{Path, PathBuf};
use std::process::{Command, Stdio};
use std::time::{Duration, Instant};

pub type Outcome<T> = Result<T, Box<dyn Error>>;

/// Runs for the best time.
const TRIES: usize = 30;

/// A program with its arguments.
pub struct Job {
    pub path: PathBuf,
    pub words: Vec<String>,
}

/// The path of a program: from an environment variable, or else its usual place in the repository.
pub fn path(variable: &str, usual: &str) -> PathBuf {
    let root = PathBuf::from(env!("CARGO_MANIFEST_DIR")).join("../..");
    std::env::var_os(variable).map_or(root.join(usual), PathBuf::from)
}

impl Job {
    /// The instructions that callgrind counts, from the start of the process to its end.
    pub fn instructions(&self, input: &Path) -> Outcome<u64> {
        let mut command = Command::new("valgrind");
        command.args(["--tool=callgrind", "--callgrind-out-file=/dev/null"]).arg(&self.path).args(&self.words);
        let output = command.stdin(File::open(input)?).stdout(Stdio::null()).output()?;
        let said = String::from_utf8_lossy(&output.stderr);
        let line = said.lines().find_map(|line| line.split_once("Collected :"));
        Ok(line.ok_or("callgrind gave no count")?.1.trim().parse()?)
    }

    /// The shortest time of many runs, process start included.
    pub fn best_time(&self, input: &Path) -> Outcome<Duration> {
        let mut best = Duration::MAX;
        for _ in 0..TRIES {
            let mut command = Command::new(&self.path);
            command.args(&self.words).stdin(File::open(input)?).stdout(Stdio::null());
            let start = Instant::now();
            command.status()?;
            best = best.min(start.elapsed());
        }
        Ok(best)
    }

    /// What the program prints.
    pub fn output(&self, input: &Path) -> Outcome<String> {
        let mut command = Command::new(&self.path);
        let output = command.args(&self.words).stdin(File::open(input)?).output()?;
        Ok(String::from_utf8(output.stdout)?)
    }
}
