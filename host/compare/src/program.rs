//! A program under comparison: started, fed, read and ended within a time limit.

use std::fs::File;
use std::io::{self, Read, Write};
use std::os::unix::process::ExitStatusExt;
use std::path::{Path, PathBuf};
use std::process::{Child, Command, ExitStatus, Stdio};
use std::sync::mpsc::{channel, sync_channel, Receiver, RecvTimeoutError, Sender};
use std::thread;
use std::time::{Duration, Instant};

/// How much is read at once, and how many such parts may wait to be looked at.
const PART: usize = 65_536;
const PARTS: usize = 64;

/// A program that writes more than this is ended: no script asks for so much.
const FLOOD: usize = 256 << 20;

/// How a program came to its end.
#[derive(Debug, Clone, PartialEq, Eq)]
pub enum End {
    Code(i32),
    Signal(i32),
    TimeOut,
    Flood,
}

/// All that is compared.
#[derive(Debug, Clone, PartialEq, Eq)]
pub struct Outcome {
    pub output: Vec<u8>,
    pub end: End,
}

#[derive(Debug, Clone)]
pub struct Program {
    pub path: PathBuf,
    pub limit: Duration,
}

impl Program {
    pub fn new(path: &Path, limit: Duration) -> Program {
        Program {
            path: path.to_path_buf(),
            limit,
        }
    }

    /// Feeds the whole input and reads until the program has ended.
    pub fn answer(&self, input: &[u8]) -> io::Result<Outcome> {
        let running = Running::start(self)?;
        running.write(input);
        Ok(running.finish())
    }
}

/// A program that has been started. Writing and reading have threads of their
/// own, so that neither a full pipe nor a silent program can hold the driver.
pub struct Running {
    child: Child,
    input: Option<Sender<Vec<u8>>>,
    parts: Receiver<Vec<u8>>,
    output: Vec<u8>,
    deadline: Instant,
}

impl Running {
    pub fn start(program: &Program) -> io::Result<Running> {
        let mut child = Command::new(&program.path)
            .stdin(Stdio::piped())
            .stdout(Stdio::piped())
            .stderr(Stdio::null())
            .spawn()
            .map_err(|why| cannot("run", &program.path, why))?;
        let input = child.stdin.take().expect("a piped input");
        let output = child.stdout.take().expect("a piped output");
        Ok(Running::with(child, input, output, program.limit))
    }

    /// The same on named pipes. The ends that only hold the pipes open while
    /// both sides open them are closed again by the caller.
    pub fn start_on(program: &Program, input: &Path, output: &Path) -> io::Result<Running> {
        let reading = |path: &Path| File::open(path).map_err(|why| cannot("open", path, why));
        let writing = |path: &Path| {
            let opened = File::options().write(true).open(path);
            opened.map_err(|why| cannot("open", path, why))
        };
        let child = Command::new(&program.path)
            .stdin(reading(input)?)
            .stdout(writing(output)?)
            .stderr(Stdio::null())
            .spawn()
            .map_err(|why| cannot("run", &program.path, why))?;
        let (input, output) = (writing(input)?, reading(output)?);
        Ok(Running::with(child, input, output, program.limit))
    }

    fn with(
        child: Child,
        input: impl Write + Send + 'static,
        output: impl Read + Send + 'static,
        limit: Duration,
    ) -> Running {
        let (to_input, from_driver) = channel();
        let (to_driver, parts) = sync_channel(PARTS);
        thread::spawn(move || write_all(input, from_driver));
        thread::spawn(move || read_all(output, |part| to_driver.send(part).is_ok()));
        Running {
            child,
            input: Some(to_input),
            parts,
            output: Vec::new(),
            deadline: Instant::now() + limit,
        }
    }

    /// Hands over a part of the input; it is written as soon as there is room.
    pub fn write(&self, bytes: &[u8]) {
        if let Some(input) = &self.input {
            // The writing thread is gone if the program closed its input.
            let _ = input.send(bytes.to_vec());
        }
    }

    /// Closes the input.
    pub fn close(&mut self) {
        self.input = None;
    }

    pub fn output(&self) -> &[u8] {
        &self.output
    }

    /// Waits until so many bytes of output have come, at most for `wait`. False
    /// if they have not.
    pub fn wait_for(&mut self, bytes: usize, wait: Duration) -> bool {
        let until = Instant::now() + wait;
        while self.output.len() < bytes {
            match self.next_part(until) {
                Ok(part) => self.output.extend(part),
                Err(_) => return false,
            }
        }
        true
    }

    /// The next part of the output, for readers that keep nothing.
    pub fn next_part(&mut self, until: Instant) -> Result<Vec<u8>, RecvTimeoutError> {
        let wait = until.saturating_duration_since(Instant::now());
        self.parts.recv_timeout(wait)
    }

    /// Closes the input, reads all the rest and waits for the end.
    pub fn finish(mut self) -> Outcome {
        self.close();
        let end = loop {
            match self.next_part(self.deadline) {
                Ok(part) => self.output.extend(part),
                Err(RecvTimeoutError::Timeout) => break End::TimeOut,
                Err(RecvTimeoutError::Disconnected) => break self.end(self.deadline),
            }
            if self.output.len() > FLOOD {
                break End::Flood;
            }
        };
        Outcome {
            output: std::mem::take(&mut self.output),
            end,
        }
    }

    /// The program's end, once its output is closed.
    pub fn end(&mut self, until: Instant) -> End {
        let mut pause = Duration::from_micros(20);
        loop {
            match self.child.try_wait() {
                Ok(Some(status)) => return how_ended(status),
                _ if Instant::now() > until => return End::TimeOut,
                _ => thread::sleep(pause),
            }
            pause = (pause * 2).min(Duration::from_millis(5));
        }
    }
}

/// A program that is no longer looked at is ended, so that none is left behind.
impl Drop for Running {
    fn drop(&mut self) {
        if let Ok(None) = self.child.try_wait() {
            let _ = self.child.kill();
            let _ = self.child.wait();
        }
    }
}

fn how_ended(status: ExitStatus) -> End {
    match status.code() {
        Some(code) => End::Code(code),
        None => End::Signal(status.signal().unwrap_or(0)),
    }
}

/// The error with what could not be done, and to which file.
pub fn cannot(what: &str, path: &Path, why: io::Error) -> io::Error {
    io::Error::new(
        why.kind(),
        format!("cannot {what} {}: {why}", path.display()),
    )
}

/// Each part is one write, so that a cut stays a cut.
fn write_all(mut input: impl Write, parts: Receiver<Vec<u8>>) {
    for part in parts {
        if input.write_all(&part).is_err() {
            return;
        }
    }
}

fn read_all(mut output: impl Read, mut hand_over: impl FnMut(Vec<u8>) -> bool) {
    let mut buffer = vec![0; PART];
    loop {
        match output.read(&mut buffer) {
            Ok(0) => return,
            Ok(length) => {
                if !hand_over(buffer[..length].to_vec()) {
                    return;
                }
            }
            Err(error) if error.kind() == io::ErrorKind::Interrupted => {}
            Err(_) => return,
        }
    }
}

#[cfg(test)]
mod tests {
    use super::*;

    fn program(path: &str, limit: u64) -> Program {
        Program::new(Path::new(path), Duration::from_millis(limit))
    }

    #[test]
    fn what_a_program_writes_is_read_whole() {
        let input = vec![b'x'; 1_000_000];
        let outcome = program("cat", 10_000).answer(&input).unwrap();
        assert_eq!(outcome.end, End::Code(0));
        assert!(outcome.output == input);
    }

    #[test]
    fn a_program_that_does_not_end_runs_out_of_time() {
        let outcome = program("yes", 50).answer(b"").unwrap();
        assert!(matches!(outcome.end, End::TimeOut | End::Flood));
    }

    #[test]
    fn a_failing_end_is_seen() {
        let outcome = program("false", 10_000).answer(b"03\n").unwrap();
        assert_eq!(outcome.end, End::Code(1));
    }

    #[test]
    fn a_program_that_is_not_there_is_an_error() {
        assert!(program("./no-such-program", 10).answer(b"").is_err());
    }

    #[test]
    fn a_program_that_is_not_there_is_named() {
        let error = program("./no-such-program", 10).answer(b"").unwrap_err();
        assert!(error.to_string().contains("cannot run ./no-such-program"));
    }
}
