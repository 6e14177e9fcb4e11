//! An encoder of X.691's aligned variant that can be told to do one thing as no encoder does.

use std::mem;

/// What is done otherwise. Zero bits, lengths and counts are numbered from 0 in the order in which
/// they stand in the message.
#[derive(Clone, Copy, Debug)]
pub enum Twist {
    Nothing,
    /// A bit that is 0 in every message is set: of padding, or an extension bit.
    Bit(usize),
    Length(usize, Form),
    /// What stands for a count becomes another number.
    Count(usize, fn(u16) -> u16),
}

/// What becomes of the length of an open type. The lengths around it are those of what is written.
#[derive(Clone, Copy, Debug)]
pub enum Form {
    /// Another number, in the form that this number has.
    Says(fn(usize) -> usize),
    /// Two bytes, however small it is.
    Long,
    /// Fragments of so many times 16,384 bytes are announced.
    Fragments(u8),
    /// Length 0, and no contents.
    Empty,
}

/// How much of each kind a message has.
#[derive(Clone, Copy, Debug, Default, PartialEq, Eq)]
pub struct Spots {
    pub bits: usize,
    pub lengths: usize,
    pub counts: usize,
}

pub struct Encoder {
    twist: Twist,
    seen: Spots,
    bits: BitWriter,
}

#[derive(Default)]
struct BitWriter {
    bytes: Vec<u8>,
    /// Of the last byte.
    free: u32,
}

impl BitWriter {
    fn bit(&mut self, bit: bool) {
        if self.free == 0 {
            self.bytes.push(0);
            self.free = 8;
        }
        self.free -= 1;
        *self.bytes.last_mut().expect("a byte with a free bit") |= u8::from(bit) << self.free;
    }
}

impl Encoder {
    /// What is written, and how much of each kind that has.
    pub fn written(twist: Twist, write: impl FnOnce(&mut Encoder)) -> (Vec<u8>, Spots) {
        let mut encoder = Encoder { twist, seen: Spots::default(), bits: BitWriter::default() };
        write(&mut encoder);
        encoder.align();
        (encoder.bits.bytes, encoder.seen)
    }

    pub fn bits(&mut self, width: u32, number: u64) {
        (0..width).rev().for_each(|place| self.bits.bit(number >> place & 1 == 1));
    }

    /// A bit that is always 0.
    pub fn zero(&mut self) {
        let set = matches!(self.twist, Twist::Bit(k) if k == self.seen.bits);
        self.seen.bits += 1;
        self.bits.bit(set);
    }

    pub fn align(&mut self) {
        (0..self.bits.free).for_each(|_| self.zero());
    }

    /// A number of one or two bytes, or a string, that stands behind padding.
    pub fn aligned(&mut self, width: u32, number: u64) {
        self.align();
        self.bits(width, number);
    }

    /// A count, or what is written in its place: one less where a list cannot be empty.
    pub fn count(&mut self, number: u16) {
        let k = self.seen.counts;
        self.seen.counts += 1;
        let number = match self.twist {
            Twist::Count(twisted, other) if twisted == k => other(number),
            _ => number,
        };
        self.aligned(16, number.into());
    }

    /// The length, and what is written.
    pub fn open_type(&mut self, write: impl FnOnce(&mut Encoder)) {
        self.align();
        let k = self.seen.lengths;
        self.seen.lengths += 1;
        let outer = mem::take(&mut self.bits);
        write(self);
        self.align();
        let contents = mem::replace(&mut self.bits, outer).bytes;
        match self.twist {
            Twist::Length(twisted, form) if twisted == k => self.twisted(form, &contents),
            _ => self.fragments(&contents),
        }
    }

    /// What is too long for one length is in fragments, the largest first; the last is below 16,384
    /// bytes, and may be empty.
    fn fragments(&mut self, contents: &[u8]) {
        let times = (contents.len() >> 14).min(4);
        if times == 0 {
            self.length(contents.len());
            return self.octets(contents);
        }
        let (fragment, rest) = contents.split_at(times << 14);
        self.bits(8, 0xc0 + times as u64);
        self.octets(fragment);
        self.fragments(rest);
    }

    fn twisted(&mut self, form: Form, contents: &[u8]) {
        match form {
            Form::Says(other) => self.length(other(contents.len())),
            Form::Long => self.bits(16, 0x8000 + contents.len() as u64 % (1 << 14)),
            Form::Fragments(times) => self.bits(8, 0xc0 + u64::from(times)),
            Form::Empty => return self.length(0),
        }
        self.octets(contents);
    }

    /// A length below 16,384.
    fn length(&mut self, length: usize) {
        match length {
            0..128 => self.bits(8, length as u64),
            _ => self.bits(16, 0x8000 + length as u64 % (1 << 14)),
        }
    }

    /// Where a byte begins.
    pub fn octets(&mut self, octets: &[u8]) {
        assert_eq!(self.bits.free, 0, "a byte is begun");
        self.bits.bytes.extend_from_slice(octets);
    }
}
