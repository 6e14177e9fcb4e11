//! The words of a line, taken one after the other; what does not fit is told in a sentence.

use std::fmt::Display;
use std::iter::Peekable;
use std::ops::RangeInclusive;
use std::str::{FromStr, SplitWhitespace};

use crate::cell::{CellIdentity, Head};
use crate::fault::quoted;

pub(super) struct Words<'a> {
    rest: Peekable<SplitWhitespace<'a>>,
}

impl<'a> Words<'a> {
    pub fn of(line: &'a str) -> Self {
        Words { rest: line.split_whitespace().peekable() }
    }

    pub fn next(&mut self) -> Option<&'a str> {
        self.rest.next()
    }

    /// The next word, which must be there and is asked for by this name.
    pub fn word(&mut self, name: &str) -> Result<&'a str, String> {
        self.next().ok_or_else(|| format!("The line ends where {name} is expected."))
    }

    /// Takes the next word if it is this one.
    pub fn takes(&mut self, word: &str) -> bool {
        self.rest.next_if(|next| *next == word).is_some()
    }

    pub fn expect(&mut self, word: &str) -> Result<(), String> {
        match self.word(&format!("`{word}`"))? {
            next if next == word => Ok(()),
            next => Err(format!("{} stands where `{word}` is expected.", quoted(next))),
        }
    }

    pub fn end(&mut self) -> Result<(), String> {
        match self.next() {
            None => Ok(()),
            Some(next) => Err(format!("{} and what follows is too much here.", quoted(next))),
        }
    }

    pub fn number<T>(&mut self, name: &str, range: RangeInclusive<T>) -> Result<T, String>
    where
        T: FromStr + PartialOrd + Display,
    {
        decimal(self.word(&format!("the {name}"))?, name, range)
    }

    /// Message identifier and serial number.
    pub fn text(&mut self) -> Result<(u16, u16), String> {
        let word = self.word("a text as IDENTIFIER/SERIAL")?;
        let (identifier, serial) = pair(word, "text", "IDENTIFIER/SERIAL")?;
        let identifier = decimal(identifier, "message identifier", 0..=u16::MAX)?;
        Ok((identifier, decimal(serial, "serial number", 0..=u16::MAX)?))
    }

    pub fn identity(&mut self) -> Result<CellIdentity, String> {
        let word = self.word("an NR CGI")?;
        hexadecimal(word, 15)
            .and_then(CellIdentity::from_number)
            .ok_or_else(|| format!("An NR CGI has 15 hex digits, unlike {}.", quoted(word)))
    }

    /// Bytes of two hex digits each, in one word.
    pub fn octets(&mut self) -> Result<Vec<u8>, String> {
        let word = self.word("a message in hex digits")?;
        let octet = |pair| Some(hexadecimal(std::str::from_utf8(pair).ok()?, 2)? as u8);
        word.as_bytes()
            .chunks(2)
            .map(octet)
            .collect::<Option<Vec<u8>>>()
            .ok_or_else(|| format!("Bytes have two hex digits each, unlike {}.", quoted(word)))
    }

    /// PLMN and code.
    pub fn tracking_area(&mut self) -> Result<u64, String> {
        let word = self.word("a tracking area as PLMN/CODE")?;
        let (plmn, code) = pair(word, "tracking area", "PLMN/CODE")?;
        let plmn = hexadecimal(plmn, 6)
            .ok_or_else(|| format!("A PLMN has 6 hex digits, unlike {}.", quoted(plmn)))?;
        Ok((plmn << 24) + u64::from(decimal(code, "code", 0..=Head::LARGEST_CODE)?))
    }

    pub fn emergency_area(&mut self) -> Result<u32, String> {
        self.number("emergency area", 0..=Head::LARGEST_AREA)
    }

    /// One or more, to the end of the line.
    pub fn list<T>(&mut self, one: fn(&mut Self) -> Result<T, String>) -> Result<Vec<T>, String> {
        let mut list = vec![one(self)?];
        while self.rest.peek().is_some() {
            list.push(one(self)?);
        }
        Ok(list)
    }
}

fn pair<'a>(word: &'a str, name: &str, form: &str) -> Result<(&'a str, &'a str), String> {
    word.split_once('/')
        .ok_or_else(|| format!("A {name} is written {form}, unlike {}.", quoted(word)))
}

fn decimal<T>(word: &str, name: &str, range: RangeInclusive<T>) -> Result<T, String>
where
    T: FromStr + PartialOrd + Display,
{
    let digits = word.bytes().all(|byte| byte.is_ascii_digit());
    let number = word.parse().ok().filter(|number| digits && range.contains(number));
    number.ok_or_else(|| {
        let (least, most) = (range.start(), range.end());
        format!("The {name} must be {least} to {most}, unlike {}.", quoted(word))
    })
}

fn hexadecimal(word: &str, width: usize) -> Option<u64> {
    let digits = word.len() == width && word.bytes().all(|byte| byte.is_ascii_hexdigit());
    digits.then(|| u64::from_str_radix(word, 16).ok()).flatten()
}
