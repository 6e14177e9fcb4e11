//! The one place from which programs are run.

use std::io::{ErrorKind, Write};
use std::process::{Command, Output, Stdio};
use std::thread;
use std::time::Duration;

/// How a command ends and what it prints, on an input that comes in pieces of a length, with a
/// pause behind each.
pub fn run(command: &mut Command, input: &[u8], length: usize, pause: Duration) -> Output {
    let mut child = command
        .stdin(Stdio::piped())
        .stdout(Stdio::piped())
        .stderr(Stdio::piped())
        .spawn()
        .unwrap_or_else(|error| panic!("{command:?}: {error}"));
    let mut stdin = child.stdin.take().expect("standard input is piped");
    let input = input.to_vec();
    let writer = thread::spawn(move || {
        input.chunks(length).try_for_each(|piece| {
            thread::sleep(pause);
            stdin.write_all(piece)
        })
    });
    let output = child.wait_with_output().expect("the program ends");
    // A program that stops at a refusal need not read the rest.
    match writer.join().expect("writing does not panic") {
        Err(error) if error.kind() != ErrorKind::BrokenPipe => panic!("{command:?}: {error}"),
        _ => output,
    }
}
