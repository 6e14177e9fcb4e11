//! The answer and its rows.

use crate::cell::{Cell, CellIdentity};
use crate::fields::{Fields, Written};
use crate::place::Broadcasts;
use crate::request::SECOND;

const MARK: &[u8; 3] = b"PWA";
/// An answer's own; the table's and the record's are in their layouts.
const VERSION: u16 = 1;

#[derive(Clone, Copy, Debug, PartialEq, Eq)]
pub struct Row {
    pub identity: CellIdentity,
    pub count: Broadcasts,
    pub content: u32,
}

impl Row {
    pub const LENGTH: usize = 14;

    fn parse(bytes: &[u8]) -> Option<Row> {
        let mut fields = Fields::of(bytes);
        Some(Row {
            identity: CellIdentity::from_number(fields.u64()?)?,
            count: Broadcasts(fields.u16()?),
            content: fields.u32()?,
        })
    }
}

#[derive(Clone, Debug, PartialEq, Eq)]
pub struct Answer {
    pub kind: u8,
    pub identifier: u16,
    pub serial: u16,
    pub rows: Vec<Row>,
}

impl Answer {
    pub const HEADER: usize = 12;

    /// "room needed 12 + 14 N, or 12 + 56 N for kind 5": a second may give a row per place.
    pub fn room(kind: u8, cells: usize) -> usize {
        let rows_per_cell = if kind == SECOND { Cell::PLACES } else { 1 };
        Answer::HEADER + Row::LENGTH * rows_per_cell * cells
    }

    /// The answer that is exactly these bytes.
    pub fn parse(bytes: &[u8]) -> Option<Answer> {
        let (version, mut fields) = Fields::behind(MARK, bytes)?;
        let (kind, identifier, serial) = (fields.u8()?, fields.u16()?, fields.u16()?);
        let count = usize::from(fields.u16()?);
        let rows = fields.rest();
        if version != VERSION || rows.len() != Row::LENGTH * count {
            return None;
        }
        let rows = rows.chunks(Row::LENGTH).map(Row::parse).collect::<Option<Vec<Row>>>()?;
        Some(Answer { kind, identifier, serial, rows })
    }

    pub fn encode(&self) -> Vec<u8> {
        let written = Written::behind(MARK, VERSION)
            .u8(self.kind)
            .u16(self.identifier)
            .u16(self.serial)
            .u16(self.rows.len() as u16);
        let rows = self.rows.iter().fold(written, |written, row| {
            written.u64(row.identity.number()).u16(row.count.0).u32(row.content)
        });
        rows.bytes()
    }
}

#[cfg(test)]
mod tests {
    use super::*;

    #[test]
    fn an_answer_reads_back() {
        let identity = CellIdentity::from_number(0x00f110000000010).unwrap();
        let row = Row { identity, count: Broadcasts(2), content: 7 };
        let answer = Answer { kind: 5, identifier: 4370, serial: 16, rows: vec![row, row] };
        let bytes = answer.encode();
        assert_eq!(bytes.len(), 40);
        assert_eq!(bytes[..12], *b"PWA\x00\x01\x05\x11\x12\x00\x10\x00\x02");
        assert_eq!(Answer::parse(&bytes), Some(answer));
        assert_eq!(Answer::parse(&bytes[..39]), None);
        assert_eq!(Answer::parse(&[b"PWA\x00\x02", &bytes[5..]].concat()), None);
    }

    #[test]
    fn a_second_needs_room_for_every_place() {
        assert_eq!(Answer::room(1, 2), 40);
        assert_eq!(Answer::room(5, 2), 124);
    }
}
