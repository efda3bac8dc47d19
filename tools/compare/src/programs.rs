//! The programs under test, and what the reference says they print.

use std::io::{self, Write};
use std::path::PathBuf;
use std::process::{Command, Stdio};

/// A program under test, and the capacity of its keeper.
pub struct Program {
    pub path: PathBuf,
    pub arguments: Vec<String>,
    pub capacity: usize,
}

impl Program {
    /// What the program prints of the sheet, with how it ended.
    pub fn run(&self, sheet: &[u8]) -> io::Result<String> {
        let mut child = Command::new(&self.path)
            .args(&self.arguments)
            .stdin(Stdio::piped())
            .stdout(Stdio::piped())
            .stderr(Stdio::piped())
            .spawn()?;
        if let Some(mut input) = child.stdin.take() {
            // A program that has read enough may close its input before all is written.
            match input.write_all(sheet) {
                Err(error) if error.kind() != io::ErrorKind::BrokenPipe => return Err(error),
                _ => {}
            }
        }
        let output = child.wait_with_output()?;
        let mut text = String::from_utf8_lossy(&output.stdout).into_owned();
        if !output.status.success() {
            text.push_str(&format!(
                "[{}] {}",
                output.status,
                String::from_utf8_lossy(&output.stderr)
            ));
        }
        Ok(text)
    }

    pub fn expected(&self, sheet: &[u8]) -> String {
        reference::runner::run(sheet, self.capacity).lines()
    }

    /// Does the program print something else than the reference?
    pub fn differs(&self, sheet: &[u8]) -> io::Result<bool> {
        Ok(self.run(sheet)? != self.expected(sheet))
    }
}
