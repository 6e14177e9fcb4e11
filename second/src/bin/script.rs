//! Turns a script on standard input into the input of broadcast report on standard output.

#![forbid(unsafe_code)]

use std::env;
use std::ffi::OsString;
use std::io::{self, BufWriter, Write};
use std::process::ExitCode;

use second::text::{script, GRAMMAR};
use second::{status, Fault};

fn main() -> ExitCode {
    let arguments: Vec<OsString> = env::args_os().skip(1).collect();
    let mut output = BufWriter::new(io::stdout().lock());
    status(match &arguments[..] {
        [] => script(io::stdin().lock(), output),
        [help] if help == "--help" || help == "-h" => output
            .write_all(GRAMMAR.as_bytes())
            .and_then(|()| output.flush())
            .map_err(Fault::Unwritten),
        _ => Err(Fault::Arguments),
    })
}
