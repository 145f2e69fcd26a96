//! A program that is timed.

use std::fs::File;
use std::io::{self, Read};
use std::path::{Path, PathBuf};
use std::process::{Command, Stdio};
use std::time::{Duration, Instant};

pub struct Program {
    pub name: &'static str,
    pub path: PathBuf,
    pub words: &'static [&'static str],
}

impl Program {
    pub fn is_there(&self) -> bool {
        self.path.is_file()
    }

    fn command(&self, script: &Path) -> io::Result<Command> {
        let mut command = Command::new(&self.path);
        command.args(self.words).stdin(File::open(script)?);
        Ok(command)
    }

    /// The time from start to end on a script, the answers thrown away.
    pub fn time(&self, script: &Path) -> io::Result<Duration> {
        let mut command = self.command(script)?;
        command.stdout(Stdio::null());
        let start = Instant::now();
        let status = command
            .status()
            .map_err(|why| cannot_run(&self.path, why))?;
        let time = start.elapsed();
        if !status.success() {
            return Err(io::Error::other(format!("{}: {status}", self.name)));
        }
        Ok(time)
    }

    /// The length and a hash of the answers to a script.
    pub fn answers(&self, script: &Path) -> io::Result<(u64, u64)> {
        let mut child = self
            .command(script)?
            .stdout(Stdio::piped())
            .spawn()
            .map_err(|why| cannot_run(&self.path, why))?;
        let mut output = child.stdout.take().expect("it is piped");
        let mut block = vec![0; 1 << 16];
        let mut length = 0;
        let mut hash = 0xCBF2_9CE4_8422_2325;
        loop {
            let new = output.read(&mut block)?;
            if new == 0 {
                break;
            }
            length += new as u64;
            hash = block[..new].iter().fold(hash, fnv);
        }
        child.wait()?;
        Ok((length, hash))
    }
}

/// The error with the program's name.
pub fn cannot_run(program: &Path, why: io::Error) -> io::Error {
    io::Error::new(
        why.kind(),
        format!("cannot run {}: {why}", program.display()),
    )
}

/// Fowler, Noll and Vo's hash, byte by byte.
fn fnv(hash: u64, &byte: &u8) -> u64 {
    (hash ^ u64::from(byte)).wrapping_mul(0x0000_0100_0000_01B3)
}
