//! A program that reads standard input and writes standard output: what it writes, compared with the second engine.
//!
//! Starting a program costs far more than a case, so only some cases are given to it.

use crate::judge::{Breach, Difference};
use std::io::{self, Write};
use std::path::PathBuf;
use std::process::{Command, Stdio};

/// A program, and what it breaks where it writes something else.
pub struct Program {
    path: PathBuf,
    breach: Breach,
}

impl Program {
    /// The program at this path.
    pub fn new(path: PathBuf, breach: Breach) -> Program {
        Program { path, breach }
    }

    fn output(&self, input: &[u8]) -> io::Result<Vec<u8>> {
        let mut child = Command::new(&self.path).stdin(Stdio::piped()).stdout(Stdio::piped()).spawn()?;
        if let Some(mut stdin) = child.stdin.take() {
            // A program may stop reading once it knows its answer.
            match stdin.write_all(input) {
                Err(error) if error.kind() != io::ErrorKind::BrokenPipe => return Err(error),
                _ => {}
            }
        }
        Ok(child.wait_with_output()?.stdout)
    }

    /// Compares its output on this input.
    pub fn compare(&self, input: &[u8], expected: &str) -> Result<(), Difference> {
        let what = match self.output(input) {
            Ok(text) if text == expected.as_bytes() => return Ok(()),
            Ok(text) => format!("{:?}, second: {expected:?}", String::from_utf8_lossy(&text)),
            Err(error) => error.to_string(),
        };
        Err(Difference::new(self.breach, format!("program {}: {what}", self.path.display())))
    }
}
