//! Periods and waits around every bound of both versions, in tables and in records, and the largest
//! period whole.

use second::request::*;
use second::{Answer, Broadcasts, Cell, Place, Record, Request, Seconds, Table};

use super::cases::{Cases, Compared};
use crate::given::heads::heads;

const LARGEST: u32 = 131_071;
/// Around the bounds of both versions and of two bytes.
const UP_TO_LARGEST: [u32; 11] =
    [0, 1, 2, 4094, 4095, 4096, 65_535, 65_536, 65_537, LARGEST - 1, LARGEST];
/// Some of them small in their lower bits.
const BEYOND: [u32; 5] = [LARGEST + 1, LARGEST + 3, (1 << 24) + 2, 1 << 31, u32::MAX];
const VERSIONS: [u16; 10] = [0, 1, 2, 3, 4, 0x0100, 0x0101, 0x0102, 0x0200, 0xffff];

impl Cases<'_> {
    pub(super) fn periods(&mut self) -> Compared {
        for period in seconds() {
            self.waits(period)?;
            self.record_versions(period)?;
        }
        Ok(())
    }

    /// A place of this period with each wait, legal or not, and the seconds in which a wait passes
    /// its bound.
    fn waits(&mut self, period: u32) -> Compared {
        for wait in seconds() {
            let requested = if period == 0 { 1 } else { 3 };
            let table = self.one_place(period, requested, wait);
            self.run_seconds(table, 3)?;
        }
        Ok(())
    }

    /// A start of this period in each version, written, read and applied, beside a text with the
    /// longest wait of version 1.
    fn record_versions(&mut self, period: u32) -> Compared {
        let table = self.one_place(4095, 3, 4094);
        for (version, sib) in
            VERSIONS.iter().flat_map(|version| [6, 7, 8].map(|sib| (version, sib)))
        {
            let record = start(period, sib);
            let buffer = self.buffer(Record::HEADER);
            self.write(&record, buffer)?;
            let mut bytes = record.encode();
            bytes[3..5].copy_from_slice(&version.to_be_bytes());
            self.compare.read(&bytes)?;
            let answer = self.buffer(Answer::room(WRITE_REPLACE, 1));
            let started = self.compare.apply(table.clone(), &bytes, answer)?;
            self.run_seconds(started, 2)?;
        }
        Ok(())
    }

    /// Two broadcasts of the largest period, and every second between them.
    pub fn run_largest_period(&mut self) -> Compared {
        let table = self.one_place(LARGEST, 2, 0);
        let left = self.run_seconds(table, LARGEST as usize + 1)?;
        match Table::parse(&left) {
            Ok(table) if table.cells[0].places.is_empty() => Ok(()),
            _ => Err("two broadcasts of the largest period did not end in time".into()),
        }
    }

    /// The bytes of a table of one cell with one place that has sent nothing.
    fn one_place(&mut self, period: u32, requested: u16, wait: u32) -> Vec<u8> {
        let place = Place {
            identifier: 4370,
            serial: 16,
            content: 7,
            period: Seconds(period),
            requested: Broadcasts(requested),
            sent: Broadcasts(0),
            wait: Seconds(wait),
            sib: 8,
        };
        let head = heads(&mut self.random, 1).remove(0);
        Table { cells: vec![Cell { head, places: vec![place] }] }.encode()
    }
}

/// For a period or a wait.
fn seconds() -> impl Iterator<Item = u32> {
    UP_TO_LARGEST.into_iter().chain(BEYOND)
}

/// A start beside what is live.
fn start(period: u32, sib: u8) -> Record {
    let request = Request {
        kind: WRITE_REPLACE,
        flags: CONCURRENT,
        area: NO_AREA,
        identifier: 4370,
        serial: 17,
        content: 8,
        period: Seconds(period),
        requested: Broadcasts(1),
        sib,
    };
    Record { request, items: Vec::new() }
}
