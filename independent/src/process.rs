//! Built programs, run as processes, to be judged by their output.

use crate::harness::{Failure, Itself, Programs};
use std::io::Write;
use std::path::{Path, PathBuf};
use std::process::{Command, Stdio};

/// Where the programs lie. One that is not given is the independent one.
#[derive(Clone, Debug, Default)]
pub struct Processes {
    pub queue: Option<PathBuf>,
    pub distances: Option<PathBuf>,
}

/// A start is dear: one input of `queue` is many scripts. `distances` takes
/// one sheet a start, so that a case has some of them.
const BATCH: (usize, usize) = (30, 10);

impl Programs for Processes {
    fn queue(&self, input: &[u8]) -> Result<Vec<u8>, Failure> {
        match &self.queue {
            Some(path) => output_of(path, input),
            None => Itself { has_min: true }.queue(input),
        }
    }

    fn distances(&self, input: &[u8]) -> Result<Vec<u8>, Failure> {
        match &self.distances {
            Some(path) => output_of(path, input),
            None => Itself { has_min: true }.distances(input),
        }
    }

    fn batch(&self) -> (usize, usize) {
        match (&self.queue, &self.distances) {
            (None, None) => (1, 1),
            _ => BATCH,
        }
    }
}

/// What a program prints. It may end before it has read everything.
fn output_of(program: &Path, input: &[u8]) -> Result<Vec<u8>, Failure> {
    let failure = |error: std::io::Error| format!("{}: {error}", program.display());
    let mut child = Command::new(program)
        .stdin(Stdio::piped())
        .stdout(Stdio::piped())
        .spawn()
        .map_err(failure)?;
    let stdin = child.stdin.take();
    let output = std::thread::scope(|scope| {
        // Written beside the reading, so that neither waits for the other.
        scope.spawn(move || stdin.map(|mut stdin| stdin.write_all(input)));
        child.wait_with_output()
    });
    let output = output.map_err(failure)?;
    match output.status.code() {
        Some(_) => Ok(output.stdout),
        None => Err(format!(
            "{} did not end by itself: {}",
            program.display(),
            output.status
        )),
    }
}
