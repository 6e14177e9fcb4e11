//! Version 1 tables converted, and then run beside what they would have been under version 1.

use second::request::SECOND;
use second::{apply_in, Broadcasts, Cell, Head, Layout, Place, Record, Seconds, Table};

use super::call::Call;
use super::cases::{Cases, Compared};
use super::compare::Difference;
use super::tables::{table, table_in};
use super::texts::hex;
use super::wrong_tables::WrongTables;
use crate::given::heads::{count, heads};
use crate::given::records::{of_kind, record};

const OLD: Layout = Layout::VERSION_1;
/// Of a period and of a wait, at the bounds of a byte, of the limit and of two bytes.
const SECONDS: [u32; 12] = [0, 1, 2, 254, 255, 256, 257, 4094, 4095, 4096, 65_534, 65_535];
/// In a round, so that most of its calls are made beside version 1.
const RUNS: usize = 6;

impl Cases<'_> {
    /// What lies at a bound, then rounds until at least so many calls are made.
    pub fn run_conversions(&mut self, calls: u64) -> Compared {
        self.old_places()?;
        while self.compare.calls < calls {
            self.old_tables()?;
            self.wrong_old_tables()?;
            self.any_old_bytes()?;
            (0..RUNS).try_for_each(|_| self.run_beside())?;
        }
        Ok(())
    }

    /// The bytes of an old table, legal by version 1's rules.
    fn old(&mut self, cells: usize) -> Vec<u8> {
        let heads = heads(&mut self.random, cells);
        table_in(&OLD, &mut self.random, &heads).encode_in(&OLD)
    }

    /// Converts into a buffer of exactly the room that is needed.
    fn converted(&mut self, old: &[u8]) -> Result<Vec<u8>, Difference> {
        let room = Layout::CURRENT.table((old.len() - Table::HEADER) / OLD.cell());
        let buffer = self.buffer(room);
        self.compare.convert(old, buffer)
    }

    /// A full cell whose last place has each period and wait, legal or not.
    fn old_places(&mut self) -> Compared {
        for (period, wait) in SECONDS.iter().flat_map(|period| SECONDS.map(|wait| (*period, wait)))
        {
            let head = heads(&mut self.random, 1).remove(0);
            let others = (1..4).map(|serial| place(serial, 0x0203, 0x0102));
            let places = others.chain([place(4, period, wait)]).collect();
            let old = Table { cells: vec![Cell { head, places }] }.encode_in(&OLD);
            self.converted(&old)?;
        }
        Ok(())
    }

    /// Legal tables into buffers of each size, the old table's own among them.
    fn old_tables(&mut self) -> Compared {
        let any = [0; 3].map(|_| count(&mut self.random));
        for cells in [1, any[0], any[1], any[2], 511, 512] {
            let old = self.old(cells);
            let sizes = self.sizes(Layout::CURRENT.table(cells));
            for size in sizes.into_iter().chain([old.len(), Layout::CURRENT.table(cells - 1)]) {
                let buffer = self.buffer(size);
                self.compare.convert(&old, buffer)?;
            }
        }
        Ok(())
    }

    /// Each breakage of a table, of either version, with room and without.
    fn wrong_old_tables(&mut self) -> Compared {
        let current = WrongTables::all(Layout::CURRENT, &mut self.random);
        for wrong in WrongTables::all(OLD, &mut self.random).into_iter().chain(current) {
            let short = self.random.below(Layout::CURRENT.table(1));
            for size in [Layout::CURRENT.table(wrong.bytes.len() / OLD.cell() + 1), short] {
                let buffer = self.buffer(size);
                self.compare.convert(&wrong.bytes, buffer)?;
            }
        }
        Ok(())
    }

    /// Bytes without sense, some with the right mark, some legal but for a few bytes, and tables
    /// that are converted already.
    fn any_old_bytes(&mut self) -> Compared {
        for _ in 0..60 {
            let heads = heads(&mut self.random, 2);
            let current = table(&mut self.random, &heads).encode();
            let old = self.old(2);
            for old in [self.senseless(old), self.senseless(current.clone()), current] {
                let size = self.random.below(2 * Layout::CURRENT.table(2));
                let buffer = self.buffer(size);
                self.compare.convert(&old, buffer)?;
            }
        }
        Ok(())
    }

    /// One sequence on an old table under version 1, by second's own unit of it, and on what it is
    /// converted to: each answer is the same, and what is left of the old one converts to what is
    /// left of the other.
    fn run_beside(&mut self) -> Compared {
        let cells = 1 + self.random.below(4);
        let heads = heads(&mut self.random, cells);
        let given = table_in(&OLD, &mut self.random, &heads).encode_in(&OLD);
        let mut old = given.clone();
        let mut table = self.converted(&old)?;
        for step in 0..if self.random.one_in(8) { 4200 } else { 300 } {
            let record = self.mostly_a_second(&heads);
            let mut bytes = record.encode_in(&OLD);
            self.damage_behind_version(&mut bytes);
            let answer = self.answer(record.request.kind, cells);
            let mut old_answer = answer.clone();
            let old_done = apply_in(&OLD, &mut old, &bytes, &mut old_answer);
            let (done, left, answer) = self.compare.apply_with_answer(table, &bytes, answer)?;
            if (done, answer) != (old_done, old_answer) {
                return Err(told(&format!("request {step}, {}, is answered", hex(&bytes)), given));
            }
            table = left;
        }
        if self.converted(&old)? != table {
            return Err(told("after its requests it is", given));
        }
        Ok(())
    }

    fn mostly_a_second(&mut self, heads: &[Head]) -> Record {
        if self.random.one_in(4) {
            record(&mut self.random, heads)
        } else {
            of_kind(&mut self.random, heads, SECOND)
        }
    }

    /// Now and then another byte. A version 2 record means nothing to a unit of version 1, so that
    /// the version is left alone.
    fn damage_behind_version(&mut self, record: &mut [u8]) {
        if self.random.one_in(12) {
            let offset = 5 + self.random.below(record.len() - 5);
            record[offset] = self.random.other(record[offset]);
        }
    }
}

/// A place with a value of its own in each byte, that has sent and waits.
fn place(serial: u16, period: u32, wait: u32) -> Place {
    Place {
        identifier: 4370,
        serial,
        content: 0x0405_0607,
        period: Seconds(period),
        requested: Broadcasts(if period == 0 { 1 } else { 0x0a0b }),
        sent: Broadcasts(if period == 0 { 0 } else { 0x0809 }),
        wait: Seconds(wait),
        sib: 7,
    }
}

/// With the conversion as a call that can be made again.
fn told(what: &str, old: Vec<u8>) -> Difference {
    let table = vec![0; Layout::CURRENT.table((old.len() - Table::HEADER) / OLD.cell())];
    format!("{what} not as under version 1:\n{}\n", Call::Convert { old, table })
}
