//! From blocks of input to lines, and from answers to blocks of output.

use crate::answers::Answers;
use crate::frames::MOST_DIGITS;
use crate::session::Session;
use crate::{order, pairs};
use std::io::{self, BufRead, ErrorKind, Read, Write};

const BLOCK: usize = 64 * 1024;
/// So much of an unfinished line is kept: the longest frame, and one character
/// more to show that a line is over it.
const KEPT: usize = MOST_DIGITS + 1;

/// How strings are compared: all at once, or two at a time. The answers are the
/// same.
#[derive(Debug, Clone, Copy, PartialEq, Eq)]
pub enum Comparing {
    Together,
    Pairs,
}

pub fn serve(input: impl Read, output: impl Write) -> io::Result<()> {
    serve_with(Comparing::Together, input, output)
}

/// "lines of hexadecimal, capitals, one frame a line, ended by a line feed (the
/// last may lack it)". Every line that is complete is answered before more
/// input is waited for.
pub fn serve_with(
    comparing: Comparing,
    mut input: impl Read,
    mut output: impl Write,
) -> io::Result<()> {
    let mut session = Session::new(match comparing {
        Comparing::Together => order::first_contenders,
        Comparing::Pairs => pairs::first_contenders,
    });
    let mut answers = Answers::new();
    let mut block = vec![0; KEPT + BLOCK];
    let mut kept = 0;
    loop {
        let new = read(&mut input, &mut block[kept..])?;
        if new == 0 {
            break;
        }
        let end = kept + new;
        let mut rest = &block[..end];
        while let Some(length) = line_feed(rest) {
            session.answer(&rest[..length], &mut answers);
            rest = &rest[length + 1..];
            answers.write_many(&mut output)?;
        }
        answers.write_all(&mut output)?;
        let start = end - rest.len();
        kept = rest.len().min(KEPT);
        block.copy_within(start..start + kept, 0);
    }
    if kept > 0 {
        session.answer(&block[..kept], &mut answers);
    }
    answers.write_all(&mut output)
}

/// A read that was cut short by a signal is tried again.
fn read(input: &mut impl Read, block: &mut [u8]) -> io::Result<usize> {
    loop {
        match input.read(block) {
            Err(error) if error.kind() == ErrorKind::Interrupted => {}
            result => return result,
        }
    }
}

/// Where the first line feed stands. The library's own search for a byte takes
/// many at a time, and this is the door to it.
fn line_feed(mut text: &[u8]) -> Option<usize> {
    let whole = text;
    let length = text.skip_until(b'\n').ok()?;
    whole[..length].ends_with(b"\n").then(|| length - 1)
}
