//! The printer program, which reads standard input and prints to standard output.

use std::ffi::{OsStr, OsString};
use std::io::{Read, Write};
use std::process::{ChildStdin, Command, Stdio};
use std::thread;
use std::time::Duration;

/// From this length on, an input comes in two parts.
pub const LONG_INPUT: usize = 4096;

/// Long enough for the program to have read the first part in most cases.
const BETWEEN_PARTS: Duration = Duration::from_millis(1);

pub struct Program {
    path: OsString,
    arguments: Vec<String>,
}

impl Program {
    pub fn new(path: impl AsRef<OsStr>, arguments: &[&str]) -> Program {
        Program {
            path: path.as_ref().to_os_string(),
            arguments: arguments.iter().map(ToString::to_string).collect(),
        }
    }

    /// What it prints for an input, unless it can't be run or is killed.
    pub fn printed(&self, input: &[u8]) -> Result<Vec<u8>, String> {
        let path = self.path.to_string_lossy();
        let failed = |error| format!("can't run the printer program {path}: {error}");
        let mut child = Command::new(&self.path)
            .args(&self.arguments)
            .stdin(Stdio::piped())
            .stdout(Stdio::piped())
            .spawn()
            .map_err(failed)?;
        // A pipe holds more than any input has: this doesn't wait for the program to read.
        if let Some(stdin) = child.stdin.take() {
            write(stdin, input);
        }
        let mut output = Vec::new();
        if let Some(mut stdout) = child.stdout.take() {
            stdout.read_to_end(&mut output).map_err(failed)?;
        }
        let status = child.wait().map_err(failed)?;
        if status.code().is_none() {
            return Err(format!("the printer program was killed: {status}"));
        }
        Ok(output)
    }
}

/// A program that takes what one read gives for the whole input shows it on one in two parts.
fn write(mut stdin: ChildStdin, input: &[u8]) {
    let first_length = match input.len() {
        0..LONG_INPUT => 0,
        length => length / 2,
    };
    let (first, second) = input.split_at(first_length);
    // The program need not read an input that is too long to the end, so an error says nothing.
    if !first.is_empty() && stdin.write_all(first).is_ok() {
        thread::sleep(BETWEEN_PARTS);
    }
    stdin.write_all(second).ok();
}
