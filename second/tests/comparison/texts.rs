//! What the entry points are given and what they return, as text.

use second::{Broadcasts, Done, Message, Reading, Request, Seconds};

use super::part::Part;

/// What is given is one word, and is read back from it.
pub trait Argument: Sized {
    fn text(&self) -> String;
    fn parse(word: &str) -> Option<Self>;
}

impl Argument for Vec<u8> {
    fn text(&self) -> String {
        hex(self)
    }

    fn parse(word: &str) -> Option<Vec<u8>> {
        if word == "-" {
            return Some(Vec::new());
        }
        let digits = word.as_bytes().chunks(2).map(|pair| std::str::from_utf8(pair).ok());
        digits.map(|pair| u8::from_str_radix(pair?, 16).ok()).collect()
    }
}

/// Numbers of 64 bits each, as bytes.
impl Argument for Vec<u64> {
    fn text(&self) -> String {
        hex(&self.iter().flat_map(|number| number.to_be_bytes()).collect::<Vec<u8>>())
    }

    fn parse(word: &str) -> Option<Vec<u64>> {
        let number = |bytes: &[u8]| Some(u64::from_be_bytes(bytes.try_into().ok()?));
        Vec::<u8>::parse(word)?.chunks(8).map(number).collect()
    }
}

macro_rules! numbers {
    ($($number:ident)*) => {
        $(impl Argument for $number {
            fn text(&self) -> String {
                self.to_string()
            }

            fn parse(word: &str) -> Option<$number> {
                word.parse().ok()
            }
        })*
    };
}

numbers! { u8 usize }

/// Kind, flags, area, identifier, serial number, content, period, requested, SIB kind.
impl Argument for Request {
    fn text(&self) -> String {
        let Request { kind, flags, area, identifier, serial, content, .. } = self;
        let (period, requested, sib) = (self.period.0, self.requested.0, self.sib);
        format!("{kind},{flags},{area},{identifier},{serial},{content},{period},{requested},{sib}")
    }

    fn parse(word: &str) -> Option<Request> {
        let numbers: Vec<u32> =
            word.split(',').map(|number| number.parse().ok()).collect::<Option<_>>()?;
        let [kind, flags, area, identifier, serial, content, period, requested, sib] = numbers[..]
        else {
            return None;
        };
        Some(Request {
            kind: kind.try_into().ok()?,
            flags: flags.try_into().ok()?,
            area: area.try_into().ok()?,
            identifier: identifier.try_into().ok()?,
            serial: serial.try_into().ok()?,
            content,
            period: Seconds(period),
            requested: Broadcasts(requested.try_into().ok()?),
            sib: sib.try_into().ok()?,
        })
    }
}

pub trait Returned {
    fn text(&self) -> String;

    /// What it tells of the last buffer lent for writing, where something is written to its start.
    fn done(&self) -> Option<Done> {
        None
    }
}

impl Returned for Done {
    fn text(&self) -> String {
        format!("number {}, length {}", self.number, self.length)
    }

    fn done(&self) -> Option<Done> {
        Some(*self)
    }
}

impl Returned for Reading {
    fn text(&self) -> String {
        let Reading { number, request, items } = self;
        format!("number {number}, request {}, items {items}", request.text())
    }
}

impl Returned for u64 {
    fn text(&self) -> String {
        format!("item {self:016x}")
    }
}

impl Returned for Part {
    fn text(&self) -> String {
        let Part { number, buffer, start, length } = self;
        format!("number {number}, buffer {buffer}, start {start}, length {length}")
    }
}

impl Returned for Message {
    fn text(&self) -> String {
        let Message { number, transaction, length } = self;
        format!("number {number}, transaction {transaction}, length {length}")
    }

    fn done(&self) -> Option<Done> {
        Some(Done { number: self.number, length: self.length })
    }
}

/// Two digits a byte; `-` for no bytes, so that a text always has its words.
pub fn hex(bytes: &[u8]) -> String {
    if bytes.is_empty() {
        return "-".into();
    }
    let digit = |nibble: u8| char::from(b"0123456789abcdef"[usize::from(nibble)]);
    bytes.iter().flat_map(|byte| [digit(byte >> 4), digit(byte & 15)]).collect()
}
