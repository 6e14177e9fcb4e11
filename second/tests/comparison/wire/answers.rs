//! Answers: their bytes, what bytes tell, and seeded ones.

use std::collections::BTreeSet;

use super::any::{cells, identity, number};
use super::forms::{CANCELLED, COMPLETED};
use super::messages::{Field, Frame};
use crate::given::random::Random;

/// What an answer tells: cells with counts.
#[derive(Clone, Debug, PartialEq, Eq)]
pub struct Told {
    pub kind: u8,
    pub identifier: u16,
    pub serial: u16,
    pub rows: Vec<(u64, u16)>,
}

impl Told {
    /// As it is read from the wire, without rows.
    pub fn bare(kind: u8) -> Told {
        Told { kind, identifier: 0, serial: 0, rows: Vec::new() }
    }

    /// The response to it. "A list with no rows is left out."
    pub fn response(&self, transaction: u8) -> Frame {
        let cells: Vec<u64> = self.rows.iter().map(|(cell, _)| *cell).collect();
        let (form, list) = match self.kind {
            1 => (&COMPLETED, Field::completed(&cells)),
            _ => (&CANCELLED, Field::cancelled(&self.rows)),
        };
        let list = (!cells.is_empty()).then_some(list);
        Frame::of(form, [Field::transaction(transaction)].into_iter().chain(list).collect())
    }
}

pub const HEADER: usize = 12;
pub const ROW: usize = 14;
/// Where a row has its count and its content.
pub const COUNT: usize = 8;
pub const CONTENT: usize = 10;

/// "PWA", version, kind, identifier, serial number, number of rows; in each the cell, the count and
/// content 0.
pub fn bytes_of(told: &Told) -> Vec<u8> {
    let mut bytes = vec![b'P', b'W', b'A', 0, 1, told.kind];
    for number in [told.identifier, told.serial, told.rows.len() as u16] {
        bytes.extend([(number >> 8) as u8, number as u8]);
    }
    for (cell, count) in &told.rows {
        bytes.extend(cell.to_be_bytes());
        bytes.extend(count.to_be_bytes());
        bytes.extend([0; 4]);
    }
    bytes
}

/// What these bytes tell, if they are an answer that a start or a cancel could have.
pub fn told_by(answer: &[u8]) -> Option<Told> {
    let (header, rows) = answer.split_at_checked(HEADER)?;
    let pair = |at: usize| u16::from_be_bytes([header[at], header[at + 1]]);
    let (mark, version, kind, count) = (&header[..3], pair(3), header[5], usize::from(pair(10)));
    let is_header = mark == b"PWA" && version == 1 && (kind == 1 || kind == 2) && count <= 512;
    if !is_header || rows.len() != ROW * count {
        return None;
    }
    let mut told = Told { kind, identifier: pair(6), serial: pair(8), rows: Vec::new() };
    for row in rows.chunks(ROW) {
        let cell = row[..COUNT].iter().fold(0, |cell, byte| cell << 8 | u64::from(*byte));
        let count = u16::from_be_bytes([row[COUNT], row[COUNT + 1]]);
        let is_above = told.rows.last().is_none_or(|(before, _)| *before < cell);
        let is_row = is_above && cell < 1 << 60 && row[CONTENT..] == [0; 4];
        if !is_row || kind == 1 && count != 0 {
            return None;
        }
        told.rows.push((cell, count));
    }
    Some(told)
}

/// An answer that some table gives, of so many rows.
pub fn told(random: &mut Random, kind: u8, rows: usize) -> Told {
    let mut cells = BTreeSet::new();
    while cells.len() < rows {
        cells.insert(identity(random));
    }
    let mut told = Told { identifier: number(random), serial: number(random), ..Told::bare(kind) };
    for cell in cells {
        told.rows.push((cell, if kind == 1 { 0 } else { number(random) }));
    }
    told
}

/// How many rows an answer has: mostly few.
pub fn rows(random: &mut Random) -> usize {
    if random.one_in(6) {
        0
    } else {
        cells(random)
    }
}

/// Each two of them, in either order and twice the same.
pub fn pairs<T: Copy>(of: &[T]) -> Vec<(T, T)> {
    of.iter().flat_map(|one| of.iter().map(|two| (*one, *two))).collect()
}

/// Places in a list of such a length: all of few, and of 512 some with the first and the last.
pub fn some_of(length: usize) -> Vec<usize> {
    (0..length).step_by(if length < 512 { 1 } else { 73 }).collect()
}
