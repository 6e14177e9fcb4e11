//! The report programs, and what they print.

use std::env;
use std::process::Command;
use std::time::Duration;

use crate::run::run;

/// The own one and, where PWS_REPORT names it, the first implementation's.
pub fn programs() -> Vec<String> {
    let own = env!("CARGO_BIN_EXE_report").to_string();
    [own].into_iter().chain(env::var("PWS_REPORT")).collect()
}

/// What a program prints on standard output.
pub fn printed(program: &str, input: &[u8]) -> String {
    printed_of_pieces(program, input, input.len().max(1), Duration::ZERO)
}

/// The same, for an input that comes in pieces of a length, with a pause behind each.
pub fn printed_of_pieces(program: &str, input: &[u8], length: usize, pause: Duration) -> String {
    let output = run(&mut Command::new(program), input, length, pause);
    assert!(output.status.success(), "{program}: {output:?}");
    String::from_utf8(output.stdout).expect("the program prints text")
}
