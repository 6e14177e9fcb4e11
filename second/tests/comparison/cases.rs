//! The inputs of a comparison, in rounds: each round makes every kind of call.

use second::request::*;
use second::{Answer, Broadcasts, Cell, Head, Layout, Record, Request, Seconds};

use super::call::Call;
use super::compare::{Compare, Difference};
use super::tables::table;
use super::wrong_tables::WrongTables;
use crate::given::heads::{count, heads};
use crate::given::random::Random;
use crate::given::records::{encoded, in_area, of_kind, one_match, record, KINDS};
use crate::given::wrong_records::WrongRecords;

pub type Compared = Result<(), Difference>;

pub struct Cases<'a> {
    pub compare: Compare<'a>,
    pub random: Random,
}

impl Cases<'_> {
    /// Starts on all terms and what lies at a bound of a period, then rounds until at least so many
    /// calls are made.
    pub fn run(&mut self, calls: u64) -> Compared {
        self.starts()?;
        self.periods()?;
        while self.compare.calls < calls {
            self.builds()?;
            self.records()?;
            self.applies()?;
            self.lists()?;
            self.sequence()?;
            self.seconds()?;
            self.wrong_heads()?;
            self.wrong_tables()?;
            self.wrong_records()?;
            self.any_bytes()?;
        }
        Ok(())
    }

    fn heads(&mut self) -> Vec<Head> {
        let count = count(&mut self.random);
        heads(&mut self.random, count)
    }

    /// A buffer exact, one short, empty and longer.
    pub(super) fn sizes(&mut self, exact: usize) -> [usize; 5] {
        [exact, exact.saturating_sub(1), 0, exact + 1, exact + self.random.below(99)]
    }

    pub(super) fn buffer(&mut self, length: usize) -> Vec<u8> {
        self.random.bytes(length)
    }

    /// A buffer with room for any answer to a request on so many cells, or now and then too short.
    pub(super) fn answer(&mut self, kind: u8, cells: usize) -> Vec<u8> {
        let sizes = self.sizes(Answer::room(kind, cells));
        let often = [sizes[0], sizes[0], sizes[0], sizes[4], sizes[self.random.below(5)]];
        let size = self.random.pick(&often);
        self.buffer(size)
    }

    fn builds(&mut self) -> Compared {
        let any = count(&mut self.random);
        for count in [1, any, 511, 512] {
            let heads = heads(&mut self.random, count);
            let bytes: Vec<u8> = heads.iter().flat_map(Head::encode).collect();
            for size in self.sizes(Layout::CURRENT.table(count)) {
                let table = self.buffer(size);
                self.compare.build(&bytes, table)?;
            }
        }
        Ok(())
    }

    /// Reader, writer and items on accepted records, whole and cut.
    fn records(&mut self) -> Compared {
        let heads = self.heads();
        for kind in KINDS {
            let record = of_kind(&mut self.random, &heads, kind);
            let whole = encoded(&mut self.random, &record);
            self.compare.read(&whole)?;
            let cut = self.random.below(whole.len());
            self.compare.read(&whole[..cut])?;
            let (n, any) = (record.items.len(), self.random.below(600));
            for k in [0, 1, n.saturating_sub(1), n, any, 511, 512, usize::MAX / 8, usize::MAX] {
                self.compare.item(&whole, k)?;
                self.compare.item(&whole[..cut], k)?;
            }
            for size in self.sizes(whole.len()) {
                let buffer = self.buffer(size);
                self.write(&record, buffer)?;
            }
        }
        Ok(())
    }

    pub(super) fn write(&mut self, record: &Record, buffer: Vec<u8>) -> Compared {
        let (request, items) = (record.request, record.items.clone());
        self.compare.call(Call::Write { request, items, record: buffer }).map(drop)
    }

    /// Each kind on a table of its own, with answers of each size.
    fn applies(&mut self) -> Compared {
        let many = self.random.pick(&[257, 511, 512]);
        let any = [0; 2].map(|_| count(&mut self.random));
        for count in [1, any[0], any[1], many] {
            let heads = heads(&mut self.random, count);
            for kind in KINDS {
                let table = table(&mut self.random, &heads).encode();
                let record = of_kind(&mut self.random, &heads, kind);
                let record = encoded(&mut self.random, &record);
                for size in self.sizes(Answer::room(kind, count)) {
                    let answer = self.buffer(size);
                    self.compare.apply(table.clone(), &record, answer)?;
                }
            }
        }
        Ok(())
    }

    /// Lists of every bounding length where one item matches, for a start that every reached cell
    /// reports.
    fn lists(&mut self) -> Compared {
        let heads = heads(&mut self.random, 4);
        for area in [IN_CELLS, IN_TRACKING_AREAS, IN_EMERGENCY_AREAS] {
            for count in [1, 2, 255, 256, 257, 511, 512, 513] {
                let table = table(&mut self.random, &heads).encode();
                let mut record = in_area(&mut self.random, &heads, WRITE_REPLACE, area);
                let request = &mut record.request;
                (request.flags, request.period, request.requested) = (0, Seconds(1), Broadcasts(1));
                record.items = one_match(&mut self.random, &heads, area, count);
                let answer = self.buffer(Answer::room(WRITE_REPLACE, heads.len()));
                let bytes = encoded(&mut self.random, &record);
                self.compare.apply(table, &bytes, answer)?;
                self.compare.read(&bytes)?;
                let buffer = self.buffer(bytes.len());
                self.write(&record, buffer)?;
            }
        }
        Ok(())
    }

    /// Many requests on one table, some of them with a byte changed.
    fn sequence(&mut self) -> Compared {
        let heads = self.heads();
        let cells = heads.len();
        let mut table = table(&mut self.random, &heads).encode();
        let long = if self.random.one_in(16) { 4000 } else { 300 };
        for _ in 0..if cells > 64 { 20 } else { long } {
            let record = record(&mut self.random, &heads);
            let mut bytes = encoded(&mut self.random, &record);
            if self.random.one_in(12) {
                let offset = self.random.below(bytes.len());
                bytes[offset] = self.random.other(bytes[offset]);
            }
            let answer = self.answer(record.request.kind, cells);
            table = self.compare.apply(table, &bytes, answer)?;
        }
        Ok(())
    }

    /// A long run of seconds, and now and then longer than the largest period of version 1.
    fn seconds(&mut self) -> Compared {
        let cells = 1 + self.random.below(4);
        let heads = heads(&mut self.random, cells);
        let table = table(&mut self.random, &heads).encode();
        let seconds = if self.random.one_in(16) { 4200 } else { 300 };
        self.run_seconds(table, seconds).map(drop)
    }

    fn wrong_heads(&mut self) -> Compared {
        for wrong in WrongTables::all_heads(&mut self.random) {
            let room = Layout::CURRENT.table(wrong.bytes.len().div_ceil(Head::LENGTH));
            for size in [room, 0] {
                let table = self.buffer(size);
                self.compare.build(&wrong.bytes, table)?;
            }
        }
        Ok(())
    }

    fn wrong_tables(&mut self) -> Compared {
        let heads = heads(&mut self.random, 3);
        for wrong in WrongTables::all(Layout::CURRENT, &mut self.random) {
            let record = record(&mut self.random, &heads);
            let bytes = encoded(&mut self.random, &record);
            let cut =
                if self.random.one_in(4) { self.random.below(bytes.len()) } else { bytes.len() };
            let answer = self.answer(record.request.kind, wrong.bytes.len() / Cell::LENGTH);
            self.compare.apply(wrong.bytes, &bytes[..cut], answer)?;
        }
        Ok(())
    }

    fn wrong_records(&mut self) -> Compared {
        let cells = 1 + self.random.below(4);
        let heads = heads(&mut self.random, cells);
        let legal = table(&mut self.random, &heads).encode();
        for wrong in WrongRecords::all(&mut self.random, &heads) {
            self.compare.read(&wrong.bytes)?;
            let mut table = legal.clone();
            if self.random.one_in(4) {
                let offset = self.random.below(table.len());
                table[offset] = self.random.other(table[offset]);
            }
            let answer = self.answer(SECOND, cells);
            self.compare.apply(table, &wrong.bytes, answer)?;
            if let Some(record) = unjudged(&wrong.bytes) {
                let size = self.sizes(wrong.bytes.len())[self.random.below(5)];
                let buffer = self.buffer(size);
                self.write(&record, buffer)?;
            }
        }
        Ok(())
    }

    /// Bytes without sense, some with the right mark, some legal but for a few bytes.
    fn any_bytes(&mut self) -> Compared {
        for _ in 0..60 {
            let heads = heads(&mut self.random, 2);
            let legal_table = table(&mut self.random, &heads).encode();
            let legal_record = record(&mut self.random, &heads);
            let legal_record = encoded(&mut self.random, &legal_record);
            let legal_heads: Vec<u8> = heads.iter().flat_map(Head::encode).collect();
            let table = self.senseless(legal_table);
            let record = self.senseless(legal_record);
            let heads = self.senseless(legal_heads);
            let answer = self.answer(SECOND, 2);
            let (size, k) = (self.random.below(300), self.random.below(8));
            let buffer = self.buffer(size);
            self.compare.build(&heads, buffer.clone())?;
            self.compare.read(&record)?;
            self.compare.item(&record, k)?;
            self.compare.apply(table, &record, answer)?;
            if let Some(record) = unjudged(&record) {
                self.write(&record, buffer)?;
            }
        }
        Ok(())
    }

    pub(super) fn senseless(&mut self, legal: Vec<u8>) -> Vec<u8> {
        let length = self.random.below(2 * legal.len());
        let mut bytes = match self.random.below(4) {
            0 => return self.buffer(length),
            1 => [&legal[..5], &self.random.bytes(length)].concat(),
            2 => legal[..length.min(legal.len())].to_vec(),
            _ => legal,
        };
        for _ in 0..if bytes.is_empty() { 0 } else { self.random.below(4) } {
            let offset = self.random.below(bytes.len());
            bytes[offset] = self.random.other(bytes[offset]);
        }
        bytes
    }
}

/// The fields and items of a record's bytes, whatever they say; `None` without the first 26 bytes.
fn unjudged(bytes: &[u8]) -> Option<Record> {
    let (header, items) = bytes.split_at_checked(Record::HEADER)?;
    let number = |offset: usize, width: usize| {
        header[offset..offset + width].iter().fold(0, |number, byte| number << 8 | u32::from(*byte))
    };
    let request = Request {
        kind: header[5],
        flags: header[6],
        area: header[7],
        identifier: number(8, 2) as u16,
        serial: number(10, 2) as u16,
        content: number(12, 4),
        period: Seconds(number(16, 4)),
        requested: Broadcasts(number(20, 2) as u16),
        sib: header[22],
    };
    let items =
        items.chunks_exact(Record::ITEM).map(|item| second::item(&[header, item].concat(), 0));
    Some(Record { request, items: items.collect() })
}
