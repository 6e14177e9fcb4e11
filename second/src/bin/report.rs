//! Broadcast report: document 01's program, from standard input to standard output.

#![forbid(unsafe_code)]

use std::io::{self, BufWriter};
use std::process::ExitCode;

fn main() -> ExitCode {
    second::status(second::report(io::stdin().lock(), BufWriter::new(io::stdout().lock())))
}
