//! Document 01, "Frames": the program on standard input and standard output.

use std::io::{self, BufWriter};
use std::process::ExitCode;

const HELP: &str = "\
second: the program on frames (docs/RULES.md), written from the customer's text alone; a second opinion on the proved one.

Usage: second
Reads frames from standard input, a line each, and writes their answers. There is no option but --help.

Codes: 0 all was answered; 1 a read or a write failed; 2 a word that is not known.

Example: host/second/target/release/second < examples/night.txt
";

fn main() -> ExitCode {
    second::words::run("second", HELP, || {
        second::serve(io::stdin().lock(), BufWriter::new(io::stdout().lock()))
    })
}
