//! A readable form of the program's input. Whatever is accepted here, the program accepts.
//!
//! ```text
#![doc = include_str!("text/grammar.txt")]
//! ```

mod grammar;
mod messages;
mod requests;
mod words;

use std::io::{BufRead, Read, Write};
use std::mem;

use crate::cell::Head;
use crate::fault::{shown, Fault};
use crate::fields::{strictly_ascending, Written};
use crate::table::Table;
pub use grammar::GRAMMAR;
use words::Words;

/// With the line's end. 512 tracking areas take an eighth of it.
const LONGEST_LINE: usize = 65_536;

/// Writes the program's input that a script describes. It is written as the lines are read, so that
/// no script takes much memory, and it ends before the first line that is wrong.
pub fn script(mut text: impl BufRead, mut input: impl Write) -> Result<(), Fault> {
    let mut script = Script::default();
    for line in 1.. {
        let bytes = read_line(&mut text)?;
        let told = |sentence| Fault::Line { line, text: shown(bytes.trim_ascii()), sentence };
        let part = script.take(&bytes).map_err(told)?;
        input.write_all(&part).map_err(Fault::Unwritten)?;
        if !bytes.ends_with(b"\n") {
            let part = script.end().map_err(told)?;
            input.write_all(&part).map_err(Fault::Unwritten)?;
            break;
        }
    }
    input.flush().map_err(Fault::Unwritten)
}

/// The next line, of which no more is read than shows that it is too long. Only the last has no end.
fn read_line(text: &mut impl BufRead) -> Result<Vec<u8>, Fault> {
    let mut line = Vec::new();
    text.take(LONGEST_LINE as u64 + 1).read_until(b'\n', &mut line).map_err(Fault::Unread)?;
    Ok(line)
}

/// The cells so far, and whether they are written: N stands before them, so that they wait until the
/// last has come.
#[derive(Default)]
struct Script {
    heads: Vec<Head>,
    written: bool,
}

impl Script {
    /// What a line adds to the program's input.
    fn take(&mut self, line: &[u8]) -> Result<Vec<u8>, String> {
        if line.len() > LONGEST_LINE {
            return Err(format!("A line has at most {LONGEST_LINE} bytes."));
        }
        let line = std::str::from_utf8(line).map_err(|_| "This is not UTF-8 text.")?;
        let statement = line.split('#').next().unwrap_or_default();
        let mut words = Words::of(statement);
        let part = match words.next() {
            None => Vec::new(),
            Some("cell") => self.take_cell(&mut words)?,
            Some(first) => self.take_request(first, &mut words)?,
        };
        words.end().map(|()| part)
    }

    fn take_cell(&mut self, words: &mut Words) -> Result<Vec<u8>, String> {
        let head = cell(words)?;
        if self.written {
            return Err("Cells must come before requests.".into());
        }
        if self.heads.last().is_some_and(|last| last.identity >= head.identity) {
            return Err("Cells must ascend by NR CGI, each once.".into());
        }
        if self.heads.len() == *Table::CELLS.end() {
            return Err(format!("A table has at most {} cells.", Table::CELLS.end()));
        }
        self.heads.push(head);
        Ok(Vec::new())
    }

    fn take_request(&mut self, first: &str, words: &mut Words) -> Result<Vec<u8>, String> {
        let (record, times) = requests::request(first, words)?;
        if self.heads.is_empty() {
            return Err("A cell must come before the first request.".into());
        }
        Ok([self.cells(), record.encode().repeat(times)].concat())
    }

    /// What the script's end adds.
    fn end(&mut self) -> Result<Vec<u8>, String> {
        if self.heads.is_empty() {
            return Err("The script ends without a cell.".into());
        }
        Ok(self.cells())
    }

    /// N and the heads, the first time.
    fn cells(&mut self) -> Vec<u8> {
        if mem::replace(&mut self.written, true) {
            return Vec::new();
        }
        let count = Written::default().u16(self.heads.len() as u16);
        self.heads.iter().fold(count, |written, head| written.part(&head.encode())).bytes()
    }
}

fn cell(words: &mut Words) -> Result<Head, String> {
    let identity = words.identity()?;
    words.expect("code")?;
    let code = words.number("code", 0..=Head::LARGEST_CODE)?;
    let areas = if words.takes("areas") { words.list(Words::emergency_area)? } else { Vec::new() };
    if areas.len() > Head::MOST_AREAS {
        return Err(format!("A cell has at most {} emergency areas.", Head::MOST_AREAS));
    }
    if !strictly_ascending(&areas) {
        return Err("The emergency areas of a cell must ascend, each once.".into());
    }
    Ok(Head { identity, code, areas })
}

#[cfg(test)]
mod tests;
