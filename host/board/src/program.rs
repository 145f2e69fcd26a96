//! Asks a program for the answers to what was asked.

use std::io::Write;
use std::path::Path;
use std::process::{Command, Stdio};

/// What the program writes for an input, or why it could not be asked.
pub fn answers(program: &Path, asked: &[u8]) -> Result<Vec<u8>, String> {
    let named = |why: std::io::Error| format!("cannot ask {}: {why}", program.display());
    let mut child = Command::new(program)
        .stdin(Stdio::piped())
        .stdout(Stdio::piped())
        .spawn()
        .map_err(named)?;
    let input = child.stdin.take();
    let output = std::thread::scope(|scope| {
        // Written beside the reading: a program that answers early would otherwise wait for us while we wait for it.
        scope.spawn(move || {
            if let Some(mut input) = input {
                // A program that stops reading is told by its answers, which will be too few.
                let _ = input.write_all(asked);
            }
        });
        child.wait_with_output()
    })
    .map_err(named)?;
    if output.status.success() {
        Ok(output.stdout)
    } else {
        Err(format!(
            "{} ended with {}",
            program.display(),
            output.status
        ))
    }
}
