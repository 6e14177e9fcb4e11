//! Why a program ends before its work is done, and how that is told.

use std::fmt;
use std::io::{self, ErrorKind, Write};
use std::process::ExitCode;

/// In bytes; most lines are shorter.
const MOST_SHOWN: usize = 100;

#[derive(Debug)]
pub enum Fault {
    Unread(io::Error),
    Unwritten(io::Error),
    /// There are arguments other than the one for help.
    Arguments,
    /// A line of a script is wrong; its text is as a terminal may show it.
    Line {
        line: usize,
        text: String,
        sentence: String,
    },
}

impl Fault {
    /// Whoever reads the output has closed it.
    fn is_closed_pipe(&self) -> bool {
        matches!(self, Fault::Unwritten(error) if error.kind() == ErrorKind::BrokenPipe)
    }
}

impl fmt::Display for Fault {
    fn fmt(&self, formatter: &mut fmt::Formatter<'_>) -> fmt::Result {
        match self {
            Fault::Unread(error) => write!(formatter, "The input cannot be read: {error}."),
            Fault::Unwritten(error) => write!(formatter, "The output cannot be written: {error}."),
            Fault::Arguments => {
                let only = "The only argument is --help or -h, alone.";
                write!(formatter, "{only} A script comes on standard input.")
            }
            Fault::Line { line, text, sentence } => {
                writeln!(formatter, "line {line}: {sentence}")?;
                if !text.is_empty() {
                    writeln!(formatter, "    {text}")?;
                }
                write!(formatter, "What was written ends before this line.")
            }
        }
    }
}

/// A part of a script for a terminal: bytes that are not printable ASCII are escaped, with quotes
/// and backslashes, and what is long is cut.
pub(crate) fn shown(part: &[u8]) -> String {
    match part.split_at_checked(MOST_SHOWN) {
        Some((start, [_, ..])) => format!("{}..", start.escape_ascii()),
        _ => part.escape_ascii().to_string(),
    }
}

/// A word as it stands in a sentence.
pub(crate) fn quoted(word: &str) -> String {
    format!("`{}`", shown(word.as_bytes()))
}

/// The exit status of a program that ends so. A fault is told on standard error, but for a closed
/// pipe: who has read enough need not hear of it.
pub fn status(ended: Result<(), Fault>) -> ExitCode {
    let Err(fault) = ended else { return ExitCode::SUCCESS };
    if !fault.is_closed_pipe() {
        // Where standard error cannot be written either, only the status is left to tell it.
        let _ = writeln!(io::stderr(), "{fault}");
    }
    ExitCode::FAILURE
}

#[cfg(test)]
mod tests {
    use super::*;

    #[test]
    fn what_is_not_printable_is_escaped() {
        assert_eq!(shown(b" start 4370/16 ~"), " start 4370/16 ~");
        assert_eq!(shown(b"\0\x1b[2J\t\x7f\xff"), r"\x00\x1b[2J\t\x7f\xff");
        assert_eq!(shown("\u{e9}".as_bytes()), r"\xc3\xa9");
        for byte in 0..=255 {
            assert!(shown(&[byte]).bytes().all(|shown| (b' '..=b'~').contains(&shown)), "{byte}");
        }
    }

    #[test]
    fn what_is_long_is_cut() {
        assert_eq!(shown(&[b'a'; MOST_SHOWN]), "a".repeat(MOST_SHOWN));
        assert_eq!(shown(&[b'a'; MOST_SHOWN + 1]), format!("{}..", "a".repeat(MOST_SHOWN)));
        assert_eq!(quoted(&"\n".repeat(999)), format!("`{}..`", r"\n".repeat(MOST_SHOWN)));
    }
}
